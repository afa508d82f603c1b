//! The walk of a tree, and the links in it.

use super::{Cid, Tree};
use std::collections::btree_map::Values;
use std::slice::Iter;

impl Tree {
    /// The tree and all that it holds, each list and map before what it holds.
    pub fn iter(&self) -> Walk<'_> {
        Walk { next: Some(self), open: Vec::new() }
    }

    /// The links of the tree, in the order of the walk.
    pub fn references(&self) -> Vec<Cid> {
        let links = self.iter().filter_map(|value| match value {
            Tree::Link(cid) => Some(*cid),
            _ => None,
        });
        links.collect()
    }
}

/// What is left of an open list or map.
enum Rest<'a> {
    List(Iter<'a, Tree>),
    Map(Values<'a, String, Tree>),
}

pub struct Walk<'a> {
    next: Option<&'a Tree>,
    open: Vec<Rest<'a>>,
}

impl<'a> Iterator for Walk<'a> {
    type Item = &'a Tree;

    fn next(&mut self) -> Option<&'a Tree> {
        let value = self.next.take().or_else(|| self.following())?;
        match value {
            Tree::List(items) => self.open.push(Rest::List(items.iter())),
            Tree::Map(entries) => self.open.push(Rest::Map(entries.values())),
            _ => {}
        }
        Some(value)
    }
}

impl<'a> Walk<'a> {
    /// The next value of the innermost list or map that has one.
    fn following(&mut self) -> Option<&'a Tree> {
        loop {
            let found = match self.open.last_mut()? {
                Rest::List(items) => items.next(),
                Rest::Map(values) => values.next(),
            };
            if found.is_some() {
                return found;
            }
            self.open.pop();
        }
    }
}
