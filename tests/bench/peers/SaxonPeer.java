import java.io.ByteArrayInputStream;
import javax.xml.transform.stream.StreamSource;
import net.sf.saxon.s9api.Processor;
import net.sf.saxon.s9api.SaxonApiException;
import net.sf.saxon.s9api.XdmNode;

/** A peer of the benchmark: XPath by Saxon. */
final class SaxonPeer extends Peer {
    private final Processor processor = new Processor(false);

    @Override
    String version() {
        return "Saxon-" + processor.getSaxonEdition() + " " + processor.getSaxonProductVersion();
    }

    @Override
    long selected(byte[] document, String expression) throws SaxonApiException {
        StreamSource source = new StreamSource(new ByteArrayInputStream(document));
        XdmNode tree = processor.newDocumentBuilder().build(source);
        return processor.newXPathCompiler().evaluate(expression, tree).size();
    }

    public static void main(String[] arguments) throws Exception {
        new SaxonPeer().serve();
    }
}
