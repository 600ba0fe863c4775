import org.basex.build.xml.XMLParser;
import org.basex.core.Context;
import org.basex.core.MainOptions;
import org.basex.core.StaticOptions;
import org.basex.io.IOContent;
import org.basex.query.QueryProcessor;
import org.basex.query.value.node.DBNode;
import org.basex.util.Prop;

/** A peer of the benchmark: XPath as a query of BaseX, with its own parser, which is faster than Java's. */
final class BasexPeer extends Peer {
    /** No settings are read from a file, and none are written to one. */
    private final Context context = new Context(new StaticOptions(false));
    private final MainOptions options = new MainOptions();

    BasexPeer() {
        // Blanks are kept where texts begin and end.
        options.set(MainOptions.CHOP, false);
    }

    @Override
    String version() {
        return Prop.NAME + " " + Prop.VERSION;
    }

    @Override
    long selected(byte[] document, String expression) throws Exception {
        DBNode tree = new DBNode(new XMLParser(new IOContent(document), options));
        try (QueryProcessor query = new QueryProcessor(expression, context)) {
            return query.context(tree).value().size();
        }
    }

    public static void main(String[] arguments) throws Exception {
        new BasexPeer().serve();
    }
}
