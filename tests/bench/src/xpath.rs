//! A peer: XPath 1.0 by `xmllint`, the command of libxml2, where it is installed.

use std::process::{Command, Output};

use crate::xml::XmlFile;
use evaluator::document::Library;

const PROGRAM: &str = "xmllint";

/// A library that is asked by XPath.
pub struct Xpath {
    file: XmlFile,
}

impl Xpath {
    /// Writes the library. Or says why not: the program is missing, or the library
    /// has no XML.
    pub fn of(library: &Library) -> Result<Xpath, &'static str> {
        if Command::new(PROGRAM).arg("--version").output().is_err() {
            return Err("xmllint is not installed");
        }
        let file = XmlFile::of(library)?;
        Ok(Xpath { file })
    }

    /// The bytes of its XML.
    pub fn bytes(&self) -> usize {
        self.file.bytes
    }

    /// The number that an expression gives.
    pub fn number(&self, expression: &str) -> usize {
        // Elements are nested deeper than it takes by itself.
        let arguments = ["--huge", "--xpath", expression];
        let output = Command::new(PROGRAM)
            .args(arguments)
            .arg(&self.file.path)
            .output();
        let Output { status, stdout, .. } = output.expect("the program starts");
        assert!(status.success(), "{expression}");
        let text = String::from_utf8(stdout).expect("text");
        text.trim().parse().expect("a number")
    }
}
