import java.io.ByteArrayInputStream;
import javax.xml.parsers.DocumentBuilderFactory;
import javax.xml.xpath.XPathConstants;
import javax.xml.xpath.XPathFactory;
import org.w3c.dom.Document;
import org.w3c.dom.NodeList;

/** A peer of the benchmark: XPath 1.0 by the classes that come with Java, which are Xalan's. */
final class JdkPeer extends Peer {
    private final DocumentBuilderFactory parsers = DocumentBuilderFactory.newInstance();
    private final XPathFactory paths = XPathFactory.newInstance();

    @Override
    String version() {
        return "javax.xml.xpath";
    }

    @Override
    long selected(byte[] document, String expression) throws Exception {
        Document tree = parsers.newDocumentBuilder().parse(new ByteArrayInputStream(document));
        Object found = paths.newXPath().evaluate(expression, tree, XPathConstants.NODESET);
        return ((NodeList) found).getLength();
    }

    public static void main(String[] arguments) throws Exception {
        new JdkPeer().serve();
    }
}
