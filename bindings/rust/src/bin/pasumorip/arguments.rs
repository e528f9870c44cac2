//! A command's words: a file, and options.

use crate::fault::Fault;

pub struct Arguments {
    /// None where standard input is meant.
    pub file: Option<String>,
    options: Vec<(String, Option<String>)>,
}

impl Arguments {
    /// Reads words of a command that takes one file, these options alone, and these with a word behind them.
    pub fn read(words: &[String], alone: &[&str], with_word: &[&str]) -> Result<Arguments, Fault> {
        let mut arguments = Arguments { file: None, options: Vec::new() };
        let mut file_named = false;
        let mut words = words.iter();
        while let Some(word) = words.next() {
            if alone.contains(&word.as_str()) {
                arguments.add(word, None)?;
            } else if with_word.contains(&word.as_str()) {
                let value = words.next().ok_or_else(|| Fault::usage(&format!("{word} needs a word behind it")))?;
                arguments.add(word, Some(value.clone()))?;
            } else if word.starts_with('-') && word != "-" {
                return Err(Fault::usage(&format!("there is no option {word} here")));
            } else if file_named {
                return Err(Fault::usage(&format!("one file is expected, and {word} is a second")));
            } else {
                file_named = true;
                arguments.file = (word != "-").then(|| word.clone());
            }
        }
        Ok(arguments)
    }

    fn add(&mut self, name: &str, value: Option<String>) -> Result<(), Fault> {
        if self.has(name) {
            return Err(Fault::usage(&format!("{name} stands twice")));
        }
        self.options.push((name.to_string(), value));
        Ok(())
    }

    pub fn has(&self, name: &str) -> bool {
        self.options.iter().any(|(option, _)| option == name)
    }

    pub fn value(&self, name: &str) -> Option<&str> {
        self.options.iter().find(|(option, _)| option == name).and_then(|(_, value)| value.as_deref())
    }
}
