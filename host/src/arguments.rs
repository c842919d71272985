//! The command line.

use daphulle::{ConvertStatics, JobFile};
use std::{
    ffi::{OsStr, OsString},
    os::unix::ffi::OsStrExt,
};

#[derive(Debug, PartialEq)]
pub enum Request {
    Help,
    Version,
    Draft(Draft),
    Merge(Merge),
    /// The usual prelude, into this file.
    Prelude(OsString),
    Blocks(Blocks),
    BlocksHelp,
}

/// Names of files; `-` is standard input or output.
#[derive(Debug, PartialEq)]
pub struct Draft {
    pub compiled: OsString,
    /// Where it is not given, it is the usual one.
    pub prelude: Option<OsString>,
    pub blocks: OsString,
    /// Whether notes are errors.
    pub strict: bool,
    pub output: OsString,
}

impl Draft {
    /// What a file is called. A draft has no assembled object, and what it is not given is not at
    /// fault.
    pub fn name_of(&self, file: JobFile) -> &OsStr {
        match file {
            JobFile::Prelude => self.prelude.as_ref().unwrap_or(&self.compiled),
            JobFile::Blocks => &self.blocks,
            JobFile::Output => &self.output,
            _ => &self.compiled,
        }
    }
}

/// Names of files, and settings.
#[derive(Debug, PartialEq)]
pub struct Merge {
    pub compiled: OsString,
    pub assembled: OsString,
    pub blocks: OsString,
    /// Where it is not given, it is C as given.
    pub path: Option<OsString>,
    pub drop_mdebug_gptab: bool,
    pub convert_statics: ConvertStatics,
    /// Whether notes are errors.
    pub strict: bool,
    pub output: OsString,
}

impl Merge {
    /// What a file is called. A merge has no prelude.
    pub fn name_of(&self, file: JobFile) -> &OsStr {
        match file {
            JobFile::Assembled => &self.assembled,
            JobFile::Blocks => &self.blocks,
            JobFile::Output => &self.output,
            _ => &self.compiled,
        }
    }
}

/// Names of files, and the assembler's command.
#[derive(Debug, PartialEq)]
pub struct Blocks {
    pub from: BlocksFrom,
    /// Where files of assembly are looked for; where it is not given, the working folder.
    pub base: Option<OsString>,
    /// Where a rule for make goes, if one is asked for.
    pub dependencies: Option<OsString>,
    pub output: OsString,
}

#[derive(Debug, PartialEq)]
pub enum BlocksFrom {
    /// C with `GLOBAL_ASM`.
    Source {
        source: OsString,
        /// Where the C with placeholders goes.
        placeholders: OsString,
        /// Where it is not given, it is the usual one.
        prelude: Option<OsString>,
        assembler: Option<OsString>,
    },
    /// A list of spans.
    Spans(OsString),
}

/// The options, and whether they have a value.
const OPTIONS: [(&str, bool); 12] = [
    ("--prelude", true),
    ("--blocks", true),
    ("--path", true),
    ("--drop-mdebug-gptab", false),
    ("--convert-statics", true),
    ("--strict", false),
    ("-o", true),
    ("--placeholders", true),
    ("--spans", true),
    ("--base-dir", true),
    ("--as", true),
    ("--deps", true),
];

/// The long name of a short option. Those of -h and -V are `--help` and `--version`.
const LONG: [(&str, &str); 1] = [("--output", "-o")];

/// asm-processor's names of the modes.
const MODES: [(&str, ConvertStatics); 4] = [
    ("no", ConvertStatics::No),
    ("local", ConvertStatics::Local),
    ("global", ConvertStatics::Global),
    ("global-with-filename", ConvertStatics::GlobalWithFilename),
];

/// What the words ask for, or what is wrong with them.
pub fn parse(words: impl Iterator<Item = OsString>) -> Result<Request, String> {
    let mut words = words;
    let mut operands = vec![];
    let mut options = Options::default();
    while let Some(word) = words.next() {
        if word == "--" {
            operands.extend(words.by_ref());
        } else if word == "--help" || word == "-h" {
            return Ok(help_of(&operands));
        } else if word == "--version" || word == "-V" {
            return Ok(Request::Version);
        } else if word == "-" || !word.as_bytes().starts_with(b"-") {
            operands.push(word);
        } else {
            options.add(&word, &mut words)?;
        }
    }
    let mut operands = operands.into_iter();
    let Some(command) = operands.next() else {
        return Err("no command is given".into());
    };
    let request = match command.as_bytes() {
        b"draft" => Request::Draft(draft(&mut operands, &mut options)?),
        b"merge" => Request::Merge(merge(&mut operands, &mut options)?),
        b"prelude" => Request::Prelude(options.take("-o").unwrap_or_else(|| "-".into())),
        b"blocks" => Request::Blocks(blocks(&mut operands, &mut options)?),
        _ => return Err(format!("there is no command {command:?}")),
    };
    if let Some(word) = operands.next() {
        return Err(format!("{word:?} is one word too many"));
    }
    if let Some((option, _)) = options.0.first() {
        return Err(format!("{} has no option {option}", command.display()));
    }
    let inputs = match &request {
        Request::Draft(draft) => [
            Some(&draft.compiled),
            draft.prelude.as_ref(),
            Some(&draft.blocks),
        ],
        Request::Merge(merge) => [&merge.compiled, &merge.assembled, &merge.blocks].map(Some),
        Request::Blocks(blocks) => blocks.inputs(),
        Request::BlocksHelp => return Ok(request),
        Request::Help | Request::Version | Request::Prelude(_) => return Ok(request),
    };
    match inputs.iter().flatten().filter(|name| **name == "-").count() {
        0 | 1 => Ok(request),
        _ => Err("standard input can be one file only".into()),
    }
}

fn draft(
    operands: &mut impl Iterator<Item = OsString>,
    options: &mut Options,
) -> Result<Draft, String> {
    Ok(Draft {
        compiled: operands.next().ok_or("C is missing")?,
        prelude: options.take("--prelude"),
        blocks: options.needed("--blocks")?,
        strict: options.take("--strict").is_some(),
        output: options.needed("-o")?,
    })
}

fn merge(
    operands: &mut impl Iterator<Item = OsString>,
    options: &mut Options,
) -> Result<Merge, String> {
    Ok(Merge {
        compiled: operands.next().ok_or("C is missing")?,
        assembled: operands.next().ok_or("A is missing")?,
        blocks: options.needed("--blocks")?,
        path: options.take("--path"),
        drop_mdebug_gptab: options.take("--drop-mdebug-gptab").is_some(),
        convert_statics: match options.take("--convert-statics") {
            None => ConvertStatics::Local,
            Some(mode) => mode_of(&mode)?,
        },
        strict: options.take("--strict").is_some(),
        output: options.needed("-o")?,
    })
}

/// `blocks` has a text of its own.
fn help_of(operands: &[OsString]) -> Request {
    match operands.first() {
        Some(command) if command == "blocks" => Request::BlocksHelp,
        _ => Request::Help,
    }
}

fn blocks(
    operands: &mut impl Iterator<Item = OsString>,
    options: &mut Options,
) -> Result<Blocks, String> {
    let from = match options.take("--spans") {
        Some(list) => BlocksFrom::Spans(list),
        None => BlocksFrom::Source {
            source: operands.next().ok_or("SOURCE is missing")?,
            placeholders: options.needed("--placeholders")?,
            prelude: options.take("--prelude"),
            assembler: options.take("--as"),
        },
    };
    let blocks = Blocks {
        from,
        base: options.take("--base-dir"),
        dependencies: options.take("--deps"),
        output: options.needed("-o")?,
    };
    let outputs = [blocks.placeholders(), blocks.dependencies.as_ref()];
    let outputs = outputs.into_iter().flatten().chain([&blocks.output]);
    match outputs.filter(|name| *name == "-").count() {
        0 | 1 => Ok(blocks),
        _ => Err("standard output can be one file only".into()),
    }
}

impl Blocks {
    fn inputs(&self) -> [Option<&OsString>; 3] {
        match &self.from {
            BlocksFrom::Source {
                source, prelude, ..
            } => [Some(source), prelude.as_ref(), None],
            BlocksFrom::Spans(list) => [Some(list), None, None],
        }
    }

    fn placeholders(&self) -> Option<&OsString> {
        match &self.from {
            BlocksFrom::Source { placeholders, .. } => Some(placeholders),
            BlocksFrom::Spans(_) => None,
        }
    }
}

fn mode_of(word: &OsStr) -> Result<ConvertStatics, String> {
    let mut modes = MODES.into_iter();
    let Some((_, mode)) = modes.find(|(name, _)| word == *name) else {
        let names = MODES.map(|(name, _)| name).join(", ");
        return Err(format!(
            "--convert-statics is {word:?}, it must be one of {names}"
        ));
    };
    Ok(mode)
}

/// The options that are given, each once, with their values.
#[derive(Default)]
struct Options(Vec<(&'static str, OsString)>);

impl Options {
    /// `--name=VALUE` or `-oVALUE`; otherwise the value is the next word, whatever it is.
    fn add(
        &mut self,
        word: &OsStr,
        next: &mut impl Iterator<Item = OsString>,
    ) -> Result<(), String> {
        let (name, attached) = split(word);
        let mut long = LONG.into_iter();
        let short = long.find(|(long, _)| long.as_bytes() == name);
        let name = short.map_or(name, |(_, short)| short.as_bytes());
        let mut known = OPTIONS.into_iter();
        let Some((option, has_value)) = known.find(|(option, _)| option.as_bytes() == name) else {
            return Err(format!("there is no option {word:?}"));
        };
        let value = match (has_value, attached) {
            (true, attached) => attached
                .or_else(|| next.next())
                .ok_or_else(|| format!("{option} has no value"))?,
            (false, None) => OsString::new(),
            (false, Some(_)) => return Err(format!("{option} takes no value")),
        };
        if self.0.iter().any(|(name, _)| *name == option) {
            return Err(format!("{option} is given twice"));
        }
        self.0.push((option, value));
        Ok(())
    }

    fn take(&mut self, option: &str) -> Option<OsString> {
        let index = self.0.iter().position(|(name, _)| *name == option)?;
        Some(self.0.remove(index).1)
    }

    fn needed(&mut self, option: &str) -> Result<OsString, String> {
        self.take(option)
            .ok_or_else(|| format!("{option} is missing"))
    }
}

/// An option's name, and the value that is written in the same word.
fn split(word: &OsStr) -> (&[u8], Option<OsString>) {
    let bytes = word.as_bytes();
    let (end, value) = match bytes {
        [b'-', b'-', ..] => match bytes.iter().position(|&byte| byte == b'=') {
            Some(sign) => (sign, bytes.get(sign + 1..)),
            None => (bytes.len(), None),
        },
        [_, _, _, ..] => (2, bytes.get(2..)),
        _ => (bytes.len(), None),
    };
    let name = bytes.get(..end).unwrap_or(bytes);
    (name, value.map(|value| OsStr::from_bytes(value).into()))
}

#[cfg(test)]
mod tests {
    use super::{Draft, Merge, Request, parse};
    use daphulle::ConvertStatics;
    use std::{ffi::OsString, os::unix::ffi::OsStringExt};

    fn parsed(line: &str) -> Result<Request, String> {
        parse(line.split_whitespace().map(Into::into))
    }

    fn draft(names: [&str; 4]) -> Result<Request, String> {
        let [compiled, prelude, blocks, output] = names.map(Into::into);
        Ok(Request::Draft(Draft {
            compiled,
            prelude: Some(prelude),
            blocks,
            strict: false,
            output,
        }))
    }

    #[test]
    fn options_stand_anywhere() {
        for line in [
            "draft C --prelude P --blocks B -o O",
            "draft --blocks=B -oO --prelude=P C",
            "-o O draft --prelude P C --blocks B",
            "--prelude P --blocks B -o O -- draft C",
            "draft C --prelude P --blocks B --output O",
            "--output=O draft C --prelude P --blocks B",
            "draft --prelude P --blocks B -o O -- C",
        ] {
            assert_eq!(parsed(line), draft(["C", "P", "B", "O"]), "{line}");
        }
        let line = "draft --prelude=--x=y --blocks -o -o - -- --";
        assert_eq!(parsed(line), draft(["--", "--x=y", "-o", "-"]));
    }

    /// A merge of C, A and B into O.
    fn merge(path: Option<&str>, drops: bool, mode: ConvertStatics) -> Result<Request, String> {
        Ok(Request::Merge(Merge {
            compiled: "C".into(),
            assembled: "A".into(),
            blocks: "B".into(),
            path: path.map(Into::into),
            drop_mdebug_gptab: drops,
            convert_statics: mode,
            strict: false,
            output: "O".into(),
        }))
    }

    #[test]
    fn settings_of_a_merge() {
        use ConvertStatics::{Global, GlobalWithFilename, Local, No};
        for (line, expected) in [
            ("merge C A --blocks B -o O", merge(None, false, Local)),
            (
                "-oO merge --drop-mdebug-gptab C --blocks=B A",
                merge(None, true, Local),
            ),
            (
                "merge C A --blocks B -o O --path P --convert-statics no",
                merge(Some("P"), false, No),
            ),
            (
                "merge C A --blocks B -o O --convert-statics=local",
                merge(None, false, Local),
            ),
            (
                "merge C A --blocks B -o O --convert-statics global",
                merge(None, false, Global),
            ),
            (
                "merge --convert-statics=global-with-filename --path= C A --blocks B -o O",
                merge(Some(""), false, GlobalWithFilename),
            ),
        ] {
            assert_eq!(parsed(line), expected, "{line}");
        }
    }

    #[test]
    fn the_usual_prelude() {
        let Ok(Request::Draft(draft)) = parsed("draft C --blocks B -o O") else {
            panic!("--prelude may be left out");
        };
        assert_eq!((draft.prelude, draft.strict), (None, false));
        for (line, output) in [
            ("prelude", "-"),
            ("prelude -o -", "-"),
            ("prelude -oO", "O"),
            ("-o O prelude", "O"),
        ] {
            assert_eq!(parsed(line), Ok(Request::Prelude(output.into())), "{line}");
        }
    }

    #[test]
    fn strict() {
        for line in [
            "draft C --blocks B -o O --strict",
            "--strict draft --prelude P C --blocks B -o O",
            "merge C A --blocks B --strict -o O",
        ] {
            let is_strict = match parsed(line) {
                Ok(Request::Draft(draft)) => draft.strict,
                Ok(Request::Merge(merge)) => merge.strict,
                _ => false,
            };
            assert!(is_strict, "{line}");
        }
    }

    #[test]
    fn help_and_version() {
        for line in [
            "--help",
            "draft --help",
            "draft C --prelude P --help",
            "-h",
            "merge -h",
        ] {
            assert_eq!(parsed(line), Ok(Request::Help));
        }
        for line in ["--version", "-V", "draft -V"] {
            assert_eq!(parsed(line), Ok(Request::Version));
        }
        // a value is no option
        let line = "draft C --prelude --help --blocks --version -o O";
        assert_eq!(parsed(line), draft(["C", "--help", "--version", "O"]));
    }

    #[test]
    fn wrong_usage() {
        for (line, message) in [
            ("", "no command is given"),
            ("dratf C", "there is no command \"dratf\""),
            ("draft", "C is missing"),
            ("draft C", "--blocks is missing"),
            ("draft C --prelude", "--prelude has no value"),
            ("draft C --prelude P -o O", "--blocks is missing"),
            ("draft C --prelude P --blocks B", "-o is missing"),
            ("draft C --prelude P --blocks", "--blocks has no value"),
            ("draft C -o", "-o has no value"),
            ("draft --prelude P --prelude=P", "--prelude is given twice"),
            ("draft -o O -oO", "-o is given twice"),
            ("draft -o O --output O", "-o is given twice"),
            ("draft -hV", "there is no option \"-hV\""),
            ("draft C --preludes P", "there is no option \"--preludes\""),
            ("draft C -p P", "there is no option \"-p\""),
            ("draft C --helpp", "there is no option \"--helpp\""),
            ("merge C", "A is missing"),
            ("merge C A", "--blocks is missing"),
            ("merge C A --blocks B", "-o is missing"),
            (
                "merge C A --blocks B -o O --convert-statics all",
                "--convert-statics is \"all\", it must be one of no, local, global, \
                 global-with-filename",
            ),
            (
                "merge C A --drop-mdebug-gptab=1",
                "--drop-mdebug-gptab takes no value",
            ),
            (
                "merge --drop-mdebug-gptab --drop-mdebug-gptab",
                "--drop-mdebug-gptab is given twice",
            ),
            ("draft C --strict=1", "--strict takes no value"),
            ("draft C --strict --strict", "--strict is given twice"),
            ("prelude P", "\"P\" is one word too many"),
            ("prelude --strict", "prelude has no option --strict"),
            ("prelude --blocks B", "prelude has no option --blocks"),
            (
                "draft - --blocks - -o O",
                "standard input can be one file only",
            ),
            (
                "merge C A --blocks B -o O --prelude P",
                "merge has no option --prelude",
            ),
            (
                "draft C --prelude P --blocks B -o O --path x",
                "draft has no option --path",
            ),
            ("merge C A D --blocks B -o O", "\"D\" is one word too many"),
            (
                "merge - - --blocks B -o O",
                "standard input can be one file only",
            ),
            (
                "draft C D --prelude P --blocks B -o O",
                "\"D\" is one word too many",
            ),
            (
                "draft - --prelude - --blocks B -o O",
                "standard input can be one file only",
            ),
            (
                "draft C --prelude - --blocks - -o -",
                "standard input can be one file only",
            ),
        ] {
            assert_eq!(parsed(line), Err(message.into()), "{line}");
        }
    }

    #[test]
    fn block_files() {
        use super::{Blocks, BlocksFrom};
        let blocks = |from, base: Option<&str>, dependencies: Option<&str>| {
            Ok(Request::Blocks(Blocks {
                from,
                base: base.map(Into::into),
                dependencies: dependencies.map(Into::into),
                output: "O".into(),
            }))
        };
        let source = |prelude: Option<&str>, assembler: Option<&str>| BlocksFrom::Source {
            source: "S".into(),
            placeholders: "T".into(),
            prelude: prelude.map(Into::into),
            assembler: assembler.map(Into::into),
        };
        for (line, expected) in [
            (
                "blocks S --placeholders T -o O",
                blocks(source(None, None), None, None),
            ),
            (
                "-oO blocks --as=A --prelude P --base-dir D --deps=F S --placeholders=T",
                blocks(source(Some("P"), Some("A")), Some("D"), Some("F")),
            ),
            (
                "blocks --spans L -o O --base-dir=D",
                blocks(BlocksFrom::Spans("L".into()), Some("D"), None),
            ),
            ("blocks --help", Ok(Request::BlocksHelp)),
            ("blocks S --as A --help", Ok(Request::BlocksHelp)),
            ("--help blocks", Ok(Request::Help)),
        ] {
            assert_eq!(parsed(line), expected, "{line}");
        }
        for (line, message) in [
            ("blocks", "SOURCE is missing"),
            ("blocks S -o O", "--placeholders is missing"),
            ("blocks S --placeholders T", "-o is missing"),
            ("blocks --spans L", "-o is missing"),
            ("blocks --spans L S -o O", "\"S\" is one word too many"),
            ("blocks --spans L -o O --as A", "blocks has no option --as"),
            (
                "blocks S --placeholders T -o O --blocks B",
                "blocks has no option --blocks",
            ),
            (
                "blocks - --placeholders T --prelude - -o O",
                "standard input can be one file only",
            ),
            (
                "blocks S --placeholders - -o -",
                "standard output can be one file only",
            ),
            ("prelude --deps D", "prelude has no option --deps"),
        ] {
            assert_eq!(parsed(line), Err(message.into()), "{line}");
        }
    }

    #[test]
    fn names_are_any_bytes() {
        let name = OsString::from_vec(b"--prelude=\xff\n".to_vec());
        let words = ["draft", "C", "--blocks", "B", "-o", "O"].map(OsString::from);
        let Ok(Request::Draft(draft)) = parse(words.into_iter().chain([name])) else {
            panic!("a name of any bytes is taken");
        };
        assert_eq!(draft.prelude, Some(OsString::from_vec(b"\xff\n".to_vec())));
    }
}
