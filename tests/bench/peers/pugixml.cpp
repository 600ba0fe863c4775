/* A peer of the benchmark: XPath 1.0 by pugixml. How it is asked is in peer.h. */
#include "peer.h"

#include <pugixml.hpp>

/* Texts of blanks are nodes here too. */
static const unsigned int OPTIONS = pugi::parse_default | pugi::parse_ws_pcdata;

static size_t selected(const char *bytes, size_t length, const char *expression)
{
    pugi::xml_document document;
    if (!document.load_buffer(bytes, length, OPTIONS))
        peer_fail("no XML", expression);
    return document.select_nodes(expression).size();
}

int main()
{
    char version[64];
    snprintf(version, sizeof version, "pugixml %d.%d", PUGIXML_VERSION / 1000, PUGIXML_VERSION % 1000 / 10);
    return peer_serve(version, selected);
}
