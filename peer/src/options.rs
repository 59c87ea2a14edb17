//! Words and `--name value` options of the command line.

pub struct Options {
    words: Vec<String>,
    named: Vec<(String, String)>,
    flags: Vec<String>,
}

const FLAGS: [&str; 7] = ["counts", "careful", "plain", "slow", "pairs", "table", "no-joins"];

/// `generate` and `every` take a number of pairs; elsewhere `--pairs` stands alone.
fn is_flag(command: &str, name: &str) -> bool {
    let number = name == "pairs" && ["generate", "every"].contains(&command);
    FLAGS.contains(&name) && !number
}

impl Options {
    pub fn new(command: &str, arguments: &[String]) -> Result<Options, String> {
        let mut options = Options {
            words: vec![],
            named: vec![],
            flags: vec![],
        };
        let mut left = arguments.iter();
        while let Some(argument) = left.next() {
            match argument.strip_prefix("--") {
                None => options.words.push(argument.clone()),
                Some(name) if is_flag(command, name) => options.flags.push(name.into()),
                Some(name) => {
                    let value = left.next().ok_or(format!("--{name} needs a value"))?;
                    options.named.push((name.into(), value.clone()));
                }
            }
        }
        Ok(options)
    }

    /// The next plain word.
    pub fn word(&mut self, what: &str) -> Result<String, String> {
        if self.words.is_empty() {
            return Err(format!("{what} is missing"));
        }
        Ok(self.words.remove(0))
    }

    pub fn text(&mut self, name: &str) -> Option<String> {
        let at = self.named.iter().position(|(other, _)| other == name)?;
        Some(self.named.remove(at).1)
    }

    pub fn number(&mut self, name: &str, default: u64) -> Result<u64, String> {
        match self.text(name) {
            None => Ok(default),
            Some(text) => text
                .parse()
                .map_err(|_| format!("--{name}: {text} is no number")),
        }
    }

    pub fn size(
        &mut self,
        name: &str,
        least: usize,
        most: usize,
        default: usize,
    ) -> Result<usize, String> {
        let size = self.number(name, default.min(most) as u64)? as usize;
        if (least..=most).contains(&size) {
            return Ok(size);
        }
        Err(format!("--{name}: {size} is not {least} to {most}"))
    }

    pub fn flag(&mut self, name: &str) -> bool {
        let before = self.flags.len();
        self.flags.retain(|other| other != name);
        self.flags.len() < before
    }

    /// Nothing may be left over.
    pub fn finish(&self) -> Result<(), String> {
        let named = self.named.iter().map(|(name, _)| format!("--{name}"));
        let flags = self.flags.iter().map(|name| format!("--{name}"));
        match self.words.iter().cloned().chain(named).chain(flags).next() {
            None => Ok(()),
            Some(extra) => Err(format!("{extra} is not understood here")),
        }
    }
}
