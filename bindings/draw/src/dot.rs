//! Writing DOT, one node or arrow to a line.

/// A name and a value.
pub type Attribute<'a> = (&'a str, &'a str);

/// A directed graph as it is written.
pub struct Dot {
    text: String,
    depth: usize,
    arrows: usize,
}

impl Dot {
    /// A graph with a title above it.
    pub fn new(title: &str) -> Self {
        let mut dot = Dot { text: String::new(), depth: 0, arrows: 0 };
        dot.open("digraph session");
        dot.line("graph [rankdir=LR, fontname=\"Helvetica\", fontsize=14, labelloc=t, nodesep=0.35, ranksep=0.55];");
        dot.line("node [fontname=\"Helvetica\", fontsize=12, shape=circle, width=0.42, fixedsize=true, margin=0];");
        dot.line("edge [fontname=\"Helvetica\", fontsize=11, color=\"#707070\", arrowsize=0.7];");
        dot.line(&format!("label={};", quoted(title)));
        dot
    }

    /// Nodes up to the matching `close` stand together under a title.
    pub fn open_cluster(&mut self, name: &str, title: &str) {
        self.open(&format!("subgraph cluster_{name}"));
        self.line(&format!("label={}; style=rounded; color=\"#b0b0b0\"; margin=14;", quoted(title)));
    }

    fn open(&mut self, head: &str) {
        self.line(&format!("{head} {{"));
        self.depth += 1;
    }

    pub fn close(&mut self) {
        self.depth -= 1;
        self.line("}");
    }

    fn line(&mut self, line: &str) {
        self.text.extend(std::iter::repeat_n("  ", self.depth));
        self.text.push_str(line);
        self.text.push('\n');
    }

    pub fn node(&mut self, name: &str, attributes: &[Attribute]) {
        self.line(&format!("{name}{};", list(attributes)));
    }

    pub fn arrow(&mut self, from: &str, to: &str, attributes: &[Attribute]) {
        self.arrows += 1;
        self.line(&format!("{from} -> {to}{};", list(attributes)));
    }

    /// The text, and how many arrows it has.
    pub fn finish(mut self) -> (String, usize) {
        self.close();
        (self.text, self.arrows)
    }
}

fn list(attributes: &[Attribute]) -> String {
    if attributes.is_empty() {
        return String::new();
    }
    let written: Vec<String> = attributes.iter().map(|(name, value)| format!("{name}={}", quoted(value))).collect();
    format!(" [{}]", written.join(", "))
}

fn quoted(text: &str) -> String {
    let escaped = text.replace('\\', "\\\\").replace('"', "\\\"").replace('\n', "\\n");
    format!("\"{escaped}\"")
}
