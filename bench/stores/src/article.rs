//! An article of a stock, as it is written and as it is read.
use bincode::config::{self, Configuration, Limit, LittleEndian, Varint};
use bincode::de::{Decode, Decoder};
use bincode::enc::{Encode, Encoder};
use bincode::error::{DecodeError, EncodeError};
use std::collections::BTreeMap;
use std::error::Error;

/// An article.
pub struct Article {
    /// Its name.
    pub name: String,
    /// Its price, in cents.
    pub price: u64,
    /// Its weight in grams, if it is known.
    pub weight: Option<u32>,
    /// Texts about it, by name.
    pub notes: BTreeMap<String, String>,
}

/// The standard configuration, with a limit of 64 KiB for each article.
pub fn settings() -> Configuration<LittleEndian, Varint, Limit<65536>> {
    config::standard().with_limit::<65536>()
}

impl Encode for Article {
    fn encode<E: Encoder>(&self, encoder: &mut E) -> Result<(), EncodeError> {
        Encode::encode(&self.name, encoder)?;
        Encode::encode(&self.price, encoder)?;
        Encode::encode(&self.weight, encoder)?;
        Encode::encode(&self.notes, encoder)?;
        Ok(())
    }
}

impl<Context> Decode<Context> for Article {
    fn decode<D: Decoder<Context = Context>>(decoder: &mut D) -> Result<Article, DecodeError> {
        Ok(Article {
            name: Decode::decode(decoder)?,
            price: Decode::decode(decoder)?,
            weight: Decode::decode(decoder)?,
            notes: Decode::decode(decoder)?,
        })
    }
}

impl Article {
    /// The article that words spell: `NAME PRICE [WEIGHT] [NOTE=TEXT ..]`.
    pub fn of_words<'a>(
        mut words: impl Iterator<Item = &'a str>,
    ) -> Result<Article, Box<dyn Error>> {
        let name = words.next().ok_or("the name of the article is missing")?;
        let price = words.next().ok_or("the price of the article is missing")?;
        let mut article = Article {
            name: name.to_owned(),
            price: price
                .parse()
                .map_err(|_| format!("a price is a number below 2^64, and not {price:?}"))?,
            weight: None,
            notes: BTreeMap::new(),
        };
        for word in words {
            article.add_word(word)?;
        }
        Ok(article)
    }

    /// Adds what a word is: a note, or the weight.
    fn add_word(&mut self, word: &str) -> Result<(), Box<dyn Error>> {
        if let Some((name, text)) = word.split_once('=') {
            return match self.notes.insert(name.to_owned(), text.to_owned()) {
                None => Ok(()),
                Some(_) => Err(format!("two notes of one name: {name:?}").into()),
            };
        }
        let Ok(weight) = word.parse() else {
            return Err(format!(
                "a weight is a number below 2^32, and a note has a '=': {word:?} is neither"
            )
            .into());
        };
        match self.weight.replace(weight) {
            None => Ok(()),
            Some(_) => Err(format!("two weights: {word:?} is one more").into()),
        }
    }
}
