/* A peer of the benchmark: XPath 1.0 by libxml2. How it is asked is in peer.h. */
#define _POSIX_C_SOURCE 200809L

#include "peer.h"

#include <libxml/parser.h>
#include <libxml/xpath.h>

/* Documents may be deep, and none is fetched. */
enum { OPTIONS = XML_PARSE_HUGE | XML_PARSE_NONET };

static size_t selected(const char *bytes, size_t length, const char *expression)
{
    xmlDocPtr document = xmlReadMemory(bytes, (int)length, NULL, NULL, OPTIONS);
    xmlXPathContextPtr context = document == NULL ? NULL : xmlXPathNewContext(document);
    xmlXPathObjectPtr found = context == NULL ? NULL : xmlXPathEvalExpression((const xmlChar *)expression, context);
    size_t nodes = 0;
    if (found == NULL || found->type != XPATH_NODESET)
        peer_fail("no nodes", expression);
    /* A set that is empty may be missing. */
    if (found->nodesetval != NULL)
        nodes = (size_t)found->nodesetval->nodeNr;
    xmlXPathFreeObject(found);
    xmlXPathFreeContext(context);
    xmlFreeDoc(document);
    return nodes;
}

int main(void)
{
    char version[64];
    /* Of the library that is linked, and not of the header. */
    int number = atoi(xmlParserVersion);
    snprintf(version, sizeof version, "libxml2 %d.%d.%d", number / 10000, number / 100 % 100, number % 100);
    xmlInitParser();
    return peer_serve(version, selected);
}
