//! Maps that are made of pairs one after another.

use crate::tree::TreeBuilder;
use crate::{Map, OutOfMemory, or_abort};

/// A new map that is filled. As long as the keys rise, each is compared with the last one alone.
pub(crate) struct Filling<V> {
    map: Map<V>,
    // until a key has not risen: the tree, whose values the map has
    tree: Option<TreeBuilder>,
}

impl<V> Filling<V> {
    pub fn new() -> Filling<V> {
        Filling { map: Map::new(), tree: Some(TreeBuilder::new()) }
    }

    pub fn insert(&mut self, key: &[u8], value: V) {
        if let Some(tree) = &mut self.tree {
            let name = or_abort(self.map.values.reserve().ok_or(OutOfMemory));
            if or_abort(tree.push(key, name)) {
                self.map.values.fill(value);
                return;
            }
            self.end_order();
        }
        self.map.insert(key, value);
    }

    pub fn finish(mut self) -> Map<V> {
        self.end_order();
        self.map
    }

    fn end_order(&mut self) {
        if let Some(tree) = self.tree.take() {
            tree.finish(&mut self.map.tree);
        }
    }
}
