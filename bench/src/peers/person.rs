//! The struct of the typed rows.

use serde::{Deserialize, Serialize};

#[derive(Clone, Deserialize, Serialize)]
pub struct Person<Link> {
    pub name: String,
    pub age: u8,
    pub hobbies: Vec<String>,
    pub is_cool: bool,
    pub link: Link,
}
