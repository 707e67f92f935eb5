//! Paragraphs judged one by one: each in a section of its own, whatever is wrong with the others.

use crate::cases::paragraphs::{CONTROL, PARAGRAPH, TEXT};
use crate::cases::records::{write_record, Draft};
use oracle::{check, Refusal, Row};

/// A paragraph: the indexes of its header and of its records 67 to 71, in stream order, and that behind its last one.
#[derive(Clone, Debug, PartialEq, Eq)]
pub struct Paragraph {
    pub header: usize,
    pub parts: Vec<usize>,
    pub end: usize,
}

fn is_part(tag: u32) -> bool {
    (TEXT..=CONTROL).contains(&tag)
}

/// The paragraphs of a section, in the order of their headers.
pub fn paragraphs(rows: &[Row]) -> Vec<Paragraph> {
    let mut found: Vec<Paragraph> = Vec::new();
    let mut of_header = vec![0; rows.len()];
    // the last record of each level, and the paragraph that has not ended there
    let mut open: Vec<usize> = Vec::new();
    for (index, row) in rows.iter().enumerate() {
        for ended in open.drain((row.level as usize).min(open.len())..) {
            if rows[ended].tag == PARAGRAPH {
                found[of_header[ended]].end = index;
            }
        }
        open.push(index);
        let parent = row.parent as usize;
        if is_part(row.tag) && parent < index && rows[parent].tag == PARAGRAPH {
            found[of_header[parent]].parts.push(index);
        }
        if row.tag == PARAGRAPH {
            of_header[index] = found.len();
            found.push(Paragraph {
                header: index,
                parts: Vec::new(),
                end: rows.len(),
            });
        }
    }
    found
}

/// What the rules but 9 say of a paragraph that has these parts, with the place in the stream that they are from.
/// Of two records 67 to 70 of one tag it has the first.
pub fn refusal(stream: &[u8], rows: &[Row], header: usize, parts: &[usize]) -> Option<Refusal> {
    let mut order = vec![header];
    for &part in parts {
        let doubled = |&other: &usize| rows[other].tag == rows[part].tag;
        if rows[part].tag == CONTROL || !order.iter().any(doubled) {
            order.push(part);
        }
    }
    // behind the text there is nothing, so that its end is no other record's header
    order[1..].sort_by_key(|&index| rows[index].tag == TEXT);
    let mut alone = Vec::new();
    let mut places = Vec::new();
    for &index in &order {
        places.push(alone.len());
        let level = u32::from(index != header);
        let body = rows[index].body(stream).to_vec();
        write_record(&mut alone, &Draft::new(rows[index].tag, level, body));
    }
    let refused = check(&alone).err()?;
    let nth = places.partition_point(|&place| place <= refused.place) - 1;
    let place = rows[order[nth]].header() + (refused.place - places[nth]);
    Some(Refusal { place, ..refused })
}

/// What the rules but 9 say of a paragraph.
pub fn refused(stream: &[u8], rows: &[Row], paragraph: &Paragraph) -> Option<Refusal> {
    refusal(stream, rows, paragraph.header, &paragraph.parts)
}
