//! Imports lines of JSON into a block of stored documents, reads them back, sorts the terms of a
//! field and finds those of a range, finds a field and a facet, finds documents by texts of queries,
//! lists the values of a field and the terms of all, counts documents by their facets, and handles
//! one document alone.

use kormaglen::{
    count_facets, end_of_prefix, facet_of_text, migrate_block, term_of_text, terms, text_of_facet,
    text_of_term, Document, Refusal, Schema, Value, Version,
};

const SCHEMA: &[u8] = br#"[{"name":"name","type":"text","options":{"stored":true}},
{"name":"age","type":"u64","options":{"indexed":true,"stored":true}},
{"name":"group","type":"facet","options":{"stored":true}},
{"name":"more","type":"json_object","options":{"stored":true,"fast":false}}]"#;

const LINES: &[u8] = br#"{"name":"Ada","age":36,"group":"/staff/research"}
{"name":"Bob","age":"old"}
{"name":["Alan","Adam"]}
{"name":"Cleo","age":7,"more":{"tags":["new",true]}}
"#;

fn main() -> Result<(), Refusal> {
    // A schema is read once. As each call takes it by `&mut`, it is used by one at a time.
    let mut schema = Schema::open(SCHEMA)?;
    let imported = schema.import_lines(LINES)?;
    for (line, number) in imported.lines.iter().zip(1..) {
        match line {
            Ok(bytes) => println!("line {number}: stored, {bytes} bytes"),
            Err(refusal) => println!("line {number}: {}, 0 bytes", refusal.reason),
        }
    }
    print!("{}", schema.export_block(Version::V2, &imported.block)?);
    print_range(&imported.block, "Ad")?;
    let migrated = migrate_block(Version::V2, &imported.block, Version::V3)?;
    println!("version 2 takes {} bytes, version 3 {}", imported.block.len(), migrated.len());
    for path in ["more.tags", "age"] {
        let field = schema.find_field(path)?;
        println!("field {}, path '{}'", field.number, field.rest);
    }
    print_between(&mut schema, &imported.block, "age", "[7 TO 36}")?;
    print_query(&mut schema, "age", "36")?;
    print_query(&mut schema, "more.tags", "new")?;
    print_values(&mut schema, &imported.block, "name")?;
    let terms = schema.terms_of_block(Version::V2, &imported.block)?;
    println!("terms by the schema: {}", terms.filter(Result::is_ok).count());
    print_counts(&mut schema, &imported.block, "group")?;
    print_one(&mut schema)?;
    let encoded = facet_of_text("/staff/research")?;
    println!("{} takes {} bytes", text_of_facet(&encoded)?, encoded.len());
    Ok(())
}

/// Prints in order the documents whose text in field 0 begins with a prefix.
fn print_range(block: &[u8], prefix: &str) -> Result<(), Refusal> {
    let start = term_of_text(0, prefix)?;
    let end = end_of_prefix(&start)?;
    let mut found = terms(0, Version::V2, block).collect::<Result<Vec<_>, _>>()?;
    found.retain(|term| start <= term.bytes && term.bytes < end);
    found.sort_by(|one, other| one.bytes.cmp(&other.bytes));
    for term in found {
        println!("document {}: {}", term.document, text_of_term(&term.bytes)?);
    }
    Ok(())
}

/// Prints the documents that have a value between the bounds of a text.
fn print_between(schema: &mut Schema, block: &[u8], path: &str, text: &str) -> Result<(), Refusal> {
    let field = schema.find_field(path)?.number;
    let ranges = schema.ranges_of_text(path, text)?;
    for term in terms(field, Version::V2, block) {
        let term = term?;
        if ranges.iter().any(|range| range.contains(&term.bytes)) {
            println!("{path} {text}: document {}", term.document);
        }
    }
    Ok(())
}

/// Prints how many terms a text of a query has, or why it has none.
fn print_query(schema: &mut Schema, path: &str, text: &str) -> Result<(), Refusal> {
    match schema.terms_of_text(path, text) {
        Ok(terms) => {
            // In a list of the library's each term stands after its length.
            let bytes: usize = terms.iter().map(|term| 8 + term.len()).sum();
            println!("{path} {text}: {} term, {bytes} bytes", terms.len());
        }
        // It prints the field and the reason.
        Err(Refusal::BadQuery(refusal)) => println!("{refusal}"),
        Err(other) => return Err(other),
    }
    Ok(())
}

/// Prints the texts that a field has, and which documents have them.
fn print_values(schema: &mut Schema, block: &[u8], name: &str) -> Result<(), Refusal> {
    for found in schema.values_of_block(name, Version::V2, block)? {
        if let Value::Text(text) = found.value {
            println!("document {}: {name} {text}", found.document);
        }
    }
    Ok(())
}

/// Prints the children of the root, and how many documents have a facet at or below each in a field
/// of facets.
fn print_counts(schema: &mut Schema, block: &[u8], name: &str) -> Result<(), Refusal> {
    let mut pairs = Vec::new();
    for found in schema.values_of_block(name, Version::V2, block)? {
        if let Value::Facet(facet) = found.value {
            pairs.push((found.document, facet));
        }
    }
    for count in count_facets(b"", pairs)? {
        println!("{}: {}", text_of_facet(&count.child)?, count.documents);
    }
    Ok(())
}

/// One document at a time: of a line, written in version 3, and read back.
fn print_one(schema: &mut Schema) -> Result<(), Refusal> {
    let mut document = Document::parse(schema, br#"{"name":"Dora","age":41}"#)?;
    let bytes = document.write(schema, Version::V3)?;
    let len = document.read_again(Version::V3, &bytes)?;
    println!("{} takes {len} bytes", document.to_json(schema)?);
    match document.parse_again(schema, br#"{"age":"old"}"#) {
        Err(Refusal::BadLine(refusal)) => {
            // It prints the field and the reason.
            println!("{refusal}");
            Ok(())
        }
        other => other,
    }
}
