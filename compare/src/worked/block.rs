//! A file of cases worked by hand. Blank lines and lines that begin with `#` are skipped; a case is
//! some lines, each a word and the rest. `case NAME` begins one, and no two have one name; `why TEXT`
//! stands once or more. The other words are those of the sort of file.

pub struct Block<'a> {
    pub line: usize,
    pub name: &'a str,
    lines: Vec<Line<'a>>,
}

#[derive(Clone, Copy)]
pub struct Line<'a> {
    pub number: usize,
    word: &'a str,
    rest: &'a str,
}

/// A line that does not fit, or a case that is not whole, by its first line.
pub struct Mistake {
    pub line: usize,
    pub what: String,
}

pub fn blocks<'a>(text: &'a str, words: &[&str]) -> Result<Vec<Block<'a>>, Mistake> {
    let mut blocks: Vec<Block> = Vec::new();
    for (number, content) in (1..).zip(text.lines()) {
        let content = content.trim();
        if content.is_empty() || content.starts_with('#') {
            continue;
        }
        let (word, rest) = content.split_once(char::is_whitespace).unwrap_or((content, ""));
        let line = Line { number, word, rest: rest.trim() };
        match (word, blocks.last_mut()) {
            ("case", _) => begin(&mut blocks, line)?,
            (_, None) => return Err(line.mistake("no case has begun".to_string())),
            ("why", _) if rest.is_empty() => {
                return Err(line.mistake("'why' wants a text".to_string()));
            }
            (_, Some(block)) if word == "why" || words.contains(&word) => block.lines.push(line),
            _ => return Err(line.mistake(format!("no line begins with '{word}'"))),
        }
    }
    match blocks.iter().find(|block| block.all("why").next().is_none()) {
        Some(block) => Err(block.lacks("why")),
        None => Ok(blocks),
    }
}

fn begin<'a>(blocks: &mut Vec<Block<'a>>, line: Line<'a>) -> Result<(), Mistake> {
    let name = line.rest;
    if name.is_empty() || blocks.iter().any(|block| block.name == name) {
        return Err(line.mistake(format!("a case wants a name of its own, not '{name}'")));
    }
    blocks.push(Block { line: line.number, name, lines: Vec::new() });
    Ok(())
}

impl<'a> Block<'a> {
    pub fn all<'b>(&'b self, word: &'b str) -> impl Iterator<Item = Line<'a>> + 'b {
        self.lines.iter().copied().filter(move |line| line.word == word)
    }

    /// What the line with this word says, where there is one.
    pub fn may<T>(
        &self,
        word: &str,
        read: impl FnOnce(&'a str) -> Result<T, String>,
    ) -> Result<Option<T>, Mistake> {
        let mut lines = self.all(word);
        match (lines.next(), lines.next()) {
            (Some(line), None) => line.read(read).map(Some),
            (None, _) => Ok(None),
            (_, Some(again)) => Err(again.mistake(format!("'{word}' a second time"))),
        }
    }

    /// What the line with this word says, without which the case is not whole.
    pub fn must<T>(
        &self,
        word: &str,
        read: impl FnOnce(&'a str) -> Result<T, String>,
    ) -> Result<T, Mistake> {
        self.may(word, read)?.ok_or_else(|| self.lacks(word))
    }

    pub fn lacks(&self, word: &str) -> Mistake {
        Mistake { line: self.line, what: format!("the case has no '{word}'") }
    }
}

impl<'a> Line<'a> {
    pub fn read<T>(self, read: impl FnOnce(&'a str) -> Result<T, String>) -> Result<T, Mistake> {
        read(self.rest).map_err(|what| self.mistake(what))
    }

    pub fn mistake(self, what: String) -> Mistake {
        Mistake { line: self.number, what }
    }
}
