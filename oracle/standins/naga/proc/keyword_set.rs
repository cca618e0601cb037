//! Stands for keyword_set: names only.

pub struct CaseInsensitiveKeywordSet;
pub struct KeywordSet;
