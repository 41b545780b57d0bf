//! Findings as a log of the Static Analysis Results Interchange Format, SARIF 2.1.0 (OASIS), which code review reads. It has
//! neither a time nor a directory, so that the same files make the same log.

use crate::finding::{Finding, Ground, Spot};
use crate::json::Json;
use base::{Failure, Status};
use std::collections::BTreeMap;
use std::ffi::OsStr;
use std::os::unix::ffi::OsStrExt;

/// Where the form is described.
const SCHEMA: &str = "https://json.schemastore.org/sarif-2.1.0.json";

/// A file that was looked at.
struct Artifact {
    uri: String,
    /// Its length and its SHA-256, where all of it was read.
    content: Option<(usize, String)>,
}

/// The log of a run.
#[derive(Default)]
pub struct Log {
    artifacts: Vec<Artifact>,
    /// The number of each, by its address.
    numbers: BTreeMap<String, usize>,
    results: Vec<Json>,
    notifications: Vec<Json>,
}

impl Log {
    /// Notes a file, with its bytes where all of them were read, and answers by which number. One that is given again is the
    /// same.
    pub fn file(&mut self, path: &OsStr, bytes: Option<&[u8]>) -> usize {
        let (uri, next) = (uri(path), self.artifacts.len());
        let number = *self.numbers.entry(uri.clone()).or_insert(next);
        if number == next {
            let content = bytes.map(|bytes| (bytes.len(), base::sha256::sha256(bytes)));
            self.artifacts.push(Artifact { uri, content });
        }
        number
    }

    /// Notes what is found in a file.
    pub fn find(&mut self, file: usize, finding: &Finding) {
        let ground = finding.ground;
        let rule = Ground::of_vocabularies().iter().position(|listed| *listed == ground);
        let mut result = vec![("ruleId", Json::from(ground.id()))];
        result.extend(rule.map(|rule| ("ruleIndex", Json::from(rule))));
        result.extend([
            ("level", Json::from(ground.level())),
            ("message", text(&finding.words())),
            ("locations", Json::list([self.location(file, region(finding.spot))])),
        ]);
        self.results.push(Json::Object(result));
    }

    /// Notes why a file could not be looked at.
    pub fn fail(&mut self, file: usize, failure: &Failure) {
        self.notifications.push(Json::object([
            ("level", Json::from("error")),
            ("message", text(&failure.message)),
            ("locations", Json::list([self.location(file, None)])),
        ]));
    }

    fn location(&self, file: usize, region: Option<Json>) -> Json {
        let uri = self.artifacts.get(file).map(|artifact| artifact.uri.as_str());
        let artifact = Json::object([("uri", Json::from(uri)), ("index", Json::from(file))]);
        let mut fields = vec![("artifactLocation", artifact)];
        fields.extend(region.map(|region| ("region", region)));
        Json::object([("physicalLocation", Json::Object(fields))])
    }

    /// The log of a run that exits with this status.
    pub fn finish(self, status: Status) -> Json {
        let invocation = Json::object([
            ("executionSuccessful", Json::from(self.notifications.is_empty())),
            ("exitCode", Json::from(u32::from(status.code()))),
            ("toolExecutionNotifications", Json::List(self.notifications)),
        ]);
        let run = Json::object([
            ("tool", Json::object([("driver", driver())])),
            ("invocations", Json::list([invocation])),
            ("columnKind", Json::from("unicodeCodePoints")),
            ("artifacts", Json::list(self.artifacts.iter().map(artifact))),
            ("results", Json::List(self.results)),
        ]);
        Json::object([
            ("$schema", Json::from(SCHEMA)),
            ("version", Json::from("2.1.0")),
            ("runs", Json::list([run])),
        ])
    }
}

/// The program, with all that it finds.
fn driver() -> Json {
    let rule = |ground: Ground| {
        Json::object([
            ("id", Json::from(ground.id())),
            ("shortDescription", text(ground.sentence())),
            (
                "defaultConfiguration",
                Json::object([("level", Json::from(ground.level()))]),
            ),
        ])
    };
    Json::object([
        ("name", Json::from("desk")),
        ("version", Json::from(judge::VERSION)),
        ("rules", Json::list(Ground::of_vocabularies().into_iter().map(rule))),
    ])
}

fn artifact(artifact: &Artifact) -> Json {
    let location = Json::object([("uri", Json::from(artifact.uri.as_str()))]);
    let mut fields = vec![("location", location), ("roles", Json::list(["analysisTarget"]))];
    if let Some((length, hash)) = &artifact.content {
        fields.extend([
            ("length", Json::from(*length)),
            ("hashes", Json::object([("sha-256", Json::from(hash.as_str()))])),
        ]);
    }
    Json::Object(fields)
}

fn text(words: &str) -> Json {
    Json::object([("text", Json::from(words))])
}

/// A place in a file: of a text its line and column, of bytes those of the record.
fn region(spot: Spot) -> Option<Json> {
    match spot {
        Spot::Line(line, column) => Some(Json::object([
            ("startLine", Json::from(line)),
            ("startColumn", Json::from(column)),
        ])),
        Spot::Record(number) => Some(Json::object([
            ("byteOffset", Json::from(u64::from(number) * judge::RECORD_BYTES as u64)),
            ("byteLength", Json::from(judge::RECORD_BYTES)),
        ])),
        Spot::Whole => None,
    }
}

/// The address of a file (RFC 3986): relative as it was given, or else of the scheme `file`. Standard input is no file, and
/// has a scheme of its own.
fn uri(path: &OsStr) -> String {
    if path == "-" {
        return "stdin:".to_string();
    }
    let mut uri = String::new();
    if path.as_bytes().starts_with(b"/") {
        uri.push_str("file://");
    }
    for byte in path.as_bytes() {
        match char::from(*byte) {
            plain @ ('A'..='Z' | 'a'..='z' | '0'..='9' | '-' | '.' | '_' | '~' | '/') => uri.push(plain),
            _ => uri.push_str(&format!("%{byte:02X}")),
        }
    }
    uri
}

#[cfg(test)]
mod tests {
    use super::uri;
    use std::ffi::OsStr;
    use std::os::unix::ffi::OsStrExt;

    #[test]
    fn addresses_are_as_the_standard_has_them() {
        for (path, address) in [
            (&b"goods.text"[..], "goods.text"),
            (b"../a/b-1_2~3.text", "../a/b-1_2~3.text"),
            (b"two words.text", "two%20words.text"),
            (b"a:b?c#d%e.text", "a%3Ab%3Fc%23d%25e.text"),
            ("gr\u{fc}n.text".as_bytes(), "gr%C3%BCn.text"),
            (b"\xff\n", "%FF%0A"),
            (b"/a b/c.text", "file:///a%20b/c.text"),
            (b"-", "stdin:"),
            (b"./-", "./-"),
        ] {
            assert_eq!(uri(OsStr::from_bytes(path)), address);
        }
    }
}
