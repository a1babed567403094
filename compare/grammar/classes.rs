//! Texts by their normal text and by their tree but for the starts: the two have to part them alike.

use crate::library::Tree;
use crate::runs::Difference;
use std::collections::hash_map::{DefaultHasher, Entry};
use std::collections::{HashMap, HashSet};
use std::hash::{Hash, Hasher};

/// 128 bits that stand for what is too long to keep.
fn short(of: impl Hash) -> u128 {
    let half = |which: u8| {
        let mut hasher = DefaultHasher::new();
        (which, &of).hash(&mut hasher);
        u128::from(hasher.finish())
    };
    half(0) << 64 | half(1)
}

/// The tree of a normal text, and how many different texts have it.
struct Class {
    tree: u128,
    texts: u64,
}

#[derive(Default)]
pub struct Classes {
    by_normal: HashMap<u128, Class>,
    normal_of_tree: HashMap<u128, u128>,
    texts: HashSet<u128>,
}

impl Classes {
    pub fn add(&mut self, text: &[u8], normal: &[u8], tree: Tree<'_>) -> Result<(), Difference> {
        let (normal, tree) = (short(normal), short(tree));
        let new = u64::from(self.texts.insert(short(text)));
        if *self.normal_of_tree.entry(tree).or_insert(normal) != normal {
            return Err("a text before has another normal text, and its tree agrees".to_owned());
        }
        match self.by_normal.entry(normal) {
            Entry::Occupied(class) if class.get().tree != tree => {
                return Err("a text before has the same normal text, and its tree does not agree".to_owned());
            }
            Entry::Occupied(mut class) => class.get_mut().texts += new,
            Entry::Vacant(free) => drop(free.insert(Class { tree, texts: new })),
        }
        Ok(())
    }

    /// How many normal texts there are.
    pub fn many(&self) -> usize {
        self.by_normal.len()
    }

    /// Prints how many there are, and says whether some class has several texts.
    pub fn done(&self) -> bool {
        let several: Vec<u64> = self.by_normal.values().map(|class| class.texts).filter(|&texts| texts > 1).collect();
        println!(
            "{} different texts with {} normal texts and as many trees; {} of these have several texts, the most {}; {} pairs agree",
            self.texts.len(),
            self.by_normal.len(),
            several.len(),
            several.iter().max().unwrap_or(&0),
            several.iter().map(|texts| texts * (texts - 1) / 2).sum::<u64>()
        );
        self.by_normal.len() == self.normal_of_tree.len() && !several.is_empty()
    }
}
