//! A library as XML: the same nodes in the same order, for the peers.

use std::fs;
use std::path::PathBuf;
use std::process;
use std::sync::atomic::{AtomicUsize, Ordering};

use evaluator::document::{Kind, Library};

/// A library as a file of XML, which is removed in the end.
pub struct XmlFile {
    pub path: PathBuf,
    pub bytes: usize,
}

impl XmlFile {
    /// Writes the library. Or says why not: the library has a text that XML would
    /// not have as a node of its own, or there is no room for the file.
    pub fn of(library: &Library) -> Result<XmlFile, &'static str> {
        let xml = spell(library).ok_or("it has a text that is empty or beside another")?;
        static MADE: AtomicUsize = AtomicUsize::new(0);
        let number = MADE.fetch_add(1, Ordering::Relaxed);
        let name = format!("yurzhoad-bench-{}-{number}.xml", process::id());
        let path = std::env::temp_dir().join(name);
        fs::write(&path, &xml).map_err(|_| "the file cannot be written")?;
        Ok(XmlFile {
            path,
            bytes: xml.len(),
        })
    }
}

impl Drop for XmlFile {
    fn drop(&mut self) {
        // A file that is left over harms nothing.
        let _ = fs::remove_file(&self.path);
    }
}

/// The same nodes in the same order; `None` if XML would join or drop a text.
fn spell(library: &Library) -> Option<String> {
    let mut xml = String::new();
    // The labels of the elements that are open.
    let mut open: Vec<String> = Vec::new();
    let mut before = Kind::Element;
    for (at, node) in library.nodes.iter().enumerate() {
        let label = String::from_utf8_lossy(&node.label).into_owned();
        while open.len() > node.depth {
            xml += &format!("</{}>", open.pop()?);
            before = Kind::Element;
        }
        match node.kind {
            Kind::Element => {
                xml += &format!("<{label}");
                open.push(label);
            }
            Kind::Attribute => xml += &format!(" {label}=\"{}\"", escaped(&node.value)),
            Kind::Text if node.value.is_empty() || before == Kind::Text => return None,
            Kind::Text => xml += &escaped(&node.value),
        }
        let next = library.nodes.get(at + 1).map(|next| next.kind);
        if node.kind != Kind::Text && next != Some(Kind::Attribute) {
            xml += ">";
        }
        before = node.kind;
    }
    while let Some(label) = open.pop() {
        xml += &format!("</{label}>");
    }
    Some(xml)
}

fn escaped(value: &[u8]) -> String {
    let text = String::from_utf8_lossy(value);
    let text = text.replace('&', "&amp;").replace('<', "&lt;");
    text.replace('>', "&gt;").replace('"', "&quot;")
}

#[cfg(test)]
mod tests {
    use super::{spell, XmlFile};
    use evaluator::document::{read, Kind, Library};
    use evaluator::samples::libraries::formulary;
    use evaluator::samples::{document, X};
    use std::fs;

    #[test]
    fn a_library_is_spelled_as_xml() {
        let x = read(X.as_bytes()).expect("a legal document");
        let due = "<lib><drug name=\"heparin\"></drug><drug name=\"heparin\"></drug></lib>";
        assert_eq!(spell(&x).as_deref(), Some(due));
        let rows = |text| {
            let rows = [
                ('e', 0, "lib", ""),
                ('e', 1, "a", ""),
                ('t', 2, "text", "<1 & \"2\">"),
                ('t', 1, "text", text),
                ('e', 1, "b", ""),
                ('a', 2, "c", "\""),
                ('a', 2, "d", ""),
            ];
            spell(&read(&document(&rows)).expect("a legal document"))
        };
        let due = "<lib><a>&lt;1 &amp; &quot;2&quot;&gt;</a>x<b c=\"&quot;\" d=\"\"></b></lib>";
        assert_eq!(rows("x").as_deref(), Some(due));
        assert_eq!(rows(""), None);
    }

    #[test]
    fn texts_beside_each_other_have_no_xml() {
        let rows = [
            ('e', 0, "lib", ""),
            ('t', 1, "text", "a"),
            ('t', 1, "text", "b"),
        ];
        assert_eq!(spell(&read(&document(&rows)).expect("legal")), None);
    }

    /// The nodes that stand in some XML as it is written here: an element by its
    /// opening, an attribute by its quotes, a text by a byte between two tags.
    fn nodes_in(xml: &str) -> [usize; 3] {
        let tags = xml.split('<').skip(1);
        let opening: Vec<&str> = tags.clone().filter(|tag| !tag.starts_with('/')).collect();
        let quotes: usize = opening.iter().map(|tag| tag.matches("=\"").count()).sum();
        let texts = tags.filter(|tag| !tag.ends_with('>')).count();
        [opening.len(), quotes, texts]
    }

    fn nodes_of(library: &Library) -> [usize; 3] {
        let kinds = [Kind::Element, Kind::Attribute, Kind::Text];
        kinds.map(|kind| {
            library
                .nodes
                .iter()
                .filter(|node| node.kind == kind)
                .count()
        })
    }

    #[test]
    fn every_node_is_written_and_in_order() {
        for nodes in [1, 2, 12, 300, 1_024] {
            let library = formulary(nodes);
            let xml = spell(&library).expect("no two texts stand together");
            assert_eq!(nodes_in(&xml), nodes_of(&library));
            let mut rest = xml.as_str();
            for node in &library.nodes {
                let due = match node.kind {
                    Kind::Element => format!("<{}", String::from_utf8_lossy(&node.label)),
                    _ => String::from_utf8_lossy(&node.value).into_owned(),
                };
                let (_, behind) = rest.split_once(&due).expect("it stands behind the last");
                rest = behind;
            }
        }
    }

    #[test]
    fn a_file_has_the_xml_and_is_removed() {
        let library = formulary(40);
        let file = XmlFile::of(&library).expect("a file");
        let path = file.path.clone();
        let written = fs::read_to_string(&path).expect("the file is there");
        assert_eq!(Some(&written), spell(&library).as_ref());
        assert_eq!(file.bytes, written.len());
        drop(file);
        assert!(!path.exists());
    }
}
