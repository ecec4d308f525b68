//! The yardstick of `dump.sh`: a plain Rust program of the same steps. It reads a package database into owned parts, checks
//! each line, keeps the entries by name, and writes them again in the canonical form.
use std::collections::BTreeMap;
use std::io::Write;

#[derive(Default)]
struct Container {
    size: Option<u64>,
    digest: Option<[u8; 64]>,
}

#[derive(Default)]
struct Files {
    blocks: u64,
    paths: Vec<String>,
}

struct DocFile {
    path: String,
    details: Option<String>,
    language: Option<String>,
}

#[derive(Default)]
struct Entry {
    name: String,
    category: String,
    revision: u32,
    catalogue: Option<String>,
    shortdesc: Option<String>,
    relocated: bool,
    longdesc: Vec<String>,
    depends: Vec<String>,
    executes: Vec<String>,
    postactions: Vec<String>,
    boxes: [Container; 3],
    doc_blocks: u64,
    doc: Vec<DocFile>,
    src: Files,
    run: Files,
    bin: Vec<(String, Files)>,
    facts: Vec<(String, String)>,
}

enum Section {
    None,
    Doc,
    Src,
    Run,
    Bin,
}

fn is_path(path: &str) -> bool {
    !path.is_empty()
        && path.len() <= 1024
        && path.split('/').count() <= 64
        && path.split('/').all(|part| !matches!(part, "" | "." | ".."))
        && path.bytes().all(|b| b > 0x20 && b != 0x7f && b != b'"' && b != b'\\')
}

fn digest(text: &str) -> Option<[u8; 64]> {
    let mut bytes = [0; 64];
    if text.len() != 128 {
        return None;
    }
    for (byte, pair) in bytes.iter_mut().zip(text.as_bytes().chunks(2)) {
        *byte = u8::from_str_radix(std::str::from_utf8(pair).ok()?, 16).ok()?;
    }
    Some(bytes)
}

fn doc_file(line: &str) -> Option<DocFile> {
    let (path, mut rest) = line.split_once(' ').unwrap_or((line, ""));
    let mut file = DocFile { path: path.to_string(), details: None, language: None };
    while !rest.is_empty() {
        let (key, value) = rest.split_once("=\"")?;
        let (value, more) = value.split_once('"')?;
        match key.trim_start() {
            "details" => file.details = Some(value.to_string()),
            "language" => file.language = Some(value.to_string()),
            _ => return None,
        }
        rest = more;
    }
    is_path(path).then_some(file)
}

impl Entry {
    fn file(&mut self, section: &Section, line: &str) -> Option<()> {
        match section {
            Section::Doc => {
                self.doc.push(doc_file(line)?);
                return Some(());
            }
            Section::Src => self.src.paths.push(line.to_string()),
            Section::Run => self.run.paths.push(line.to_string()),
            Section::Bin => self.bin.last_mut()?.1.paths.push(line.to_string()),
            Section::None => return None,
        }
        is_path(line).then_some(())
    }

    fn field(&mut self, line: &str) -> Option<Section> {
        let (key, value) = line.split_once(' ').unwrap_or((line, ""));
        let blocks = || value.strip_prefix("size=").and_then(|n| n.parse().ok());
        match key {
            "name" => self.name = value.to_string(),
            "category" => self.category = value.to_string(),
            "revision" => self.revision = value.parse().ok()?,
            "catalogue" => self.catalogue = Some(value.to_string()),
            "shortdesc" => self.shortdesc = Some(value.to_string()),
            "relocated" => self.relocated = value == "1",
            "longdesc" => self.longdesc.push(value.to_string()),
            "depend" => self.depends.push(value.to_string()),
            "execute" => self.executes.push(value.to_string()),
            "postaction" => self.postactions.push(value.to_string()),
            "containersize" => self.boxes[0].size = Some(value.parse().ok()?),
            "doccontainersize" => self.boxes[1].size = Some(value.parse().ok()?),
            "srccontainersize" => self.boxes[2].size = Some(value.parse().ok()?),
            "containerchecksum" => self.boxes[0].digest = Some(digest(value)?),
            "doccontainerchecksum" => self.boxes[1].digest = Some(digest(value)?),
            "srccontainerchecksum" => self.boxes[2].digest = Some(digest(value)?),
            "docfiles" => {
                self.doc_blocks = blocks()?;
                return Some(Section::Doc);
            }
            "srcfiles" => {
                self.src.blocks = blocks()?;
                return Some(Section::Src);
            }
            "runfiles" => {
                self.run.blocks = blocks()?;
                return Some(Section::Run);
            }
            "binfiles" => {
                let (arch, size) = value.split_once(' ')?;
                let files = Files { blocks: size.strip_prefix("size=")?.parse().ok()?, paths: Vec::new() };
                self.bin.push((arch.strip_prefix("arch=")?.to_string(), files));
                return Some(Section::Bin);
            }
            _ => self.facts.push((key.strip_prefix("catalogue-")?.to_string(), value.to_string())),
        }
        Some(Section::None)
    }

    fn sorted(mut self) -> Entry {
        self.doc.sort_by(|a, b| a.path.cmp(&b.path));
        self.src.paths.sort();
        self.run.paths.sort();
        self.bin.sort_by(|a, b| a.0.cmp(&b.0));
        self
    }

    fn write(&self, out: &mut Vec<u8>) -> std::io::Result<()> {
        writeln!(out, "name {}\ncategory {}\nrevision {}", self.name, self.category, self.revision)?;
        for (key, value) in [("catalogue", &self.catalogue), ("shortdesc", &self.shortdesc)] {
            if let Some(value) = value {
                writeln!(out, "{key} {value}")?;
            }
        }
        if self.relocated {
            writeln!(out, "relocated 1")?;
        }
        for (key, values) in [("longdesc", &self.longdesc), ("depend", &self.depends), ("execute", &self.executes), ("postaction", &self.postactions)] {
            for value in values {
                writeln!(out, "{key} {value}")?;
            }
        }
        self.container(out, "", 0)?;
        self.container(out, "doc", 1)?;
        if !self.doc.is_empty() || self.doc_blocks > 0 {
            writeln!(out, "docfiles size={}", self.doc_blocks)?;
            for file in &self.doc {
                write!(out, " {}", file.path)?;
                if let Some(details) = &file.details {
                    write!(out, " details=\"{details}\"")?;
                }
                if let Some(language) = &file.language {
                    write!(out, " language=\"{language}\"")?;
                }
                out.push(b'\n');
            }
        }
        self.container(out, "src", 2)?;
        for (key, files) in [("srcfiles", &self.src), ("runfiles", &self.run)] {
            if !files.paths.is_empty() || files.blocks > 0 {
                writeln!(out, "{key} size={}", files.blocks)?;
                lines(out, &files.paths);
            }
        }
        for (platform, files) in &self.bin {
            writeln!(out, "binfiles arch={platform} size={}", files.blocks)?;
            lines(out, &files.paths);
        }
        for (key, value) in &self.facts {
            writeln!(out, "catalogue-{key} {value}")?;
        }
        out.push(b'\n');
        Ok(())
    }

    fn container(&self, out: &mut Vec<u8>, part: &str, index: usize) -> std::io::Result<()> {
        if let Some(size) = self.boxes[index].size {
            writeln!(out, "{part}containersize {size}")?;
        }
        if let Some(digest) = &self.boxes[index].digest {
            write!(out, "{part}containerchecksum ")?;
            for byte in digest {
                write!(out, "{byte:02x}")?;
            }
            out.push(b'\n');
        }
        Ok(())
    }
}

fn lines(out: &mut Vec<u8>, paths: &[String]) {
    for path in paths {
        out.push(b' ');
        out.extend_from_slice(path.as_bytes());
        out.push(b'\n');
    }
}

fn main() {
    let root = std::env::args().nth(1).expect("a root");
    let bytes = std::fs::read(format!("{root}/tlpkg/texlive.tlpdb")).expect("a database");
    let mut entries = BTreeMap::new();
    let mut entry: Option<Entry> = None;
    let mut section = Section::None;
    for line in bytes.split(|b| *b == b'\n') {
        let line = std::str::from_utf8(line).expect("text");
        if line.is_empty() {
            if let Some(entry) = entry.take() {
                assert!(entries.insert(entry.name.clone(), entry.sorted()).is_none());
            }
            continue;
        }
        let entry = entry.get_or_insert_with(|| {
            section = Section::None;
            Entry::default()
        });
        match line.strip_prefix(' ') {
            Some(file) => entry.file(&section, file).expect("a file"),
            None => section = entry.field(line).expect("a field"),
        }
    }
    let mut out = Vec::new();
    for entry in entries.values() {
        entry.write(&mut out).expect("memory");
    }
    std::io::stdout().write_all(&out).expect("an output");
}
