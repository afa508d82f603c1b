//! The post of the typed rows: `app.bsky.feed.post` of atproto.

use serde::Deserialize;

#[derive(Deserialize)]
#[allow(dead_code)]
pub struct Reference {
    pub cid: String,
    pub uri: String,
}

#[derive(Deserialize)]
#[allow(dead_code)]
pub struct Reply {
    pub parent: Reference,
    pub root: Reference,
}

#[derive(Deserialize)]
#[allow(dead_code)]
pub struct Slice {
    #[serde(rename = "byteStart")]
    pub start: u64,
    #[serde(rename = "byteEnd")]
    pub end: u64,
}

#[derive(Deserialize)]
#[allow(dead_code)]
pub struct Feature {
    pub uri: String,
}

#[derive(Deserialize)]
#[allow(dead_code)]
pub struct Facet {
    pub index: Slice,
    pub features: Vec<Feature>,
}

#[derive(Deserialize)]
#[allow(dead_code)]
pub struct Blob<Link> {
    #[serde(rename = "ref")]
    pub link: Link,
    #[serde(rename = "mimeType")]
    pub mime_type: String,
    pub size: u64,
}

#[derive(Deserialize)]
#[allow(dead_code)]
pub struct Image<Link> {
    pub alt: String,
    pub image: Blob<Link>,
}

#[derive(Deserialize)]
#[allow(dead_code)]
pub struct Embed<Link> {
    pub images: Vec<Image<Link>>,
}

#[derive(Deserialize)]
#[allow(dead_code)]
pub struct Post<Link> {
    pub text: String,
    #[serde(rename = "createdAt")]
    pub created_at: String,
    pub langs: Vec<String>,
    pub reply: Option<Reply>,
    pub facets: Option<Vec<Facet>>,
    pub embed: Option<Embed<Link>>,
}
