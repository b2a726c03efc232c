//! The inputs on which the port asks most, as far as known: three that the search found, as it wrote them, and families that grow.

use super::shapes::{Question, crowded, empty_maps, empty_records, overlapping, strides};
use crate::notation;

/// A name, a size and the question.
type Named = (&'static str, String, Question);

pub fn all() -> Vec<Named> {
    let families = [
        ("crowded records, sound", "k = j = 100", crowded(100, 100)),
        ("overlapping elements, sound", "k = j = 12", overlapping(12, 12)),
        ("overlapping elements, sound", "k = j = 200", overlapping(200, 200)),
        ("strides that differ, sound", "k = j = 19", strides(19, 19)),
        ("records of size 0", "k = j = 9", empty_records(9, 9)),
        ("records of size 0", "k = j = 40", empty_records(40, 40)),
        ("layers of size 0 and one map", "L = 15", empty_maps(15, 64, 1)),
        ("layers of size 0 and 8 maps", "L = 15", empty_maps(15, 64, 8)),
    ];
    let found = [
        ("found: sound, elements apart", "24 nodes", found_apart()),
        ("found: sound", "15 nodes", found_sound()),
        ("found: not sound", "18 nodes", found_unsound()),
    ];
    let named = |(name, size, question): (_, &str, _)| (name, size.to_owned(), question);
    found.into_iter().chain(families).map(named).collect()
}

fn found_apart() -> Question {
    written(
        "scalar 0; fields 0+978324226 {0:0 0:0 0:0 0:0 0:0 0:0 0:0 0:0}; \
         fields 16384+911549215 {0:0 0:0 0:0 0:0 0:0 0:0 0:0 0:1}; \
         fields 0+4 {0:0 0:0 0:0 0:0 0:0 0:0 0:0 0:2}",
        (3, 0),
        "O*[0:O*[0:O*[0:O*[0:O*[0:O*[0:O*[0:O*[0:O*[0:O*[0:O*[0:O*[0:O*[0:O*[0:O*[0:O*[0:O*[0:O*[0:O*[0:O*[0:O*[0:O*[0:O*[0:D*,3]]]]]]]]]]]]]]]]]]]]]]]",
    )
}

fn found_sound() -> Question {
    written(
        "fields 595574829+3 {}; fields 0+20 {4:0}; fields 227811792+20 {0:1}; \
         elements 1023961791+16 (46173032, 2, 0); elements 32768+4194304 (279337180, 3, 0); \
         elements 782646050+24 (32768, 4, 262144); elements 734723274+28 (288033100, 5, 0); \
         elements 657312980+4 (230163588, 6, 0); elements 346928387+766153080 (255530946, 7, 7); \
         elements 105093787+4 (64, 8, 82939641); elements 94180090+940759661 (28, 9, 0); \
         elements 16+28 (16, 10, 0); elements 7+4 (8, 11, 0); fields 468677674+262144 {0:12}; \
         elements 12+5 (423176126, 13, 20); elements 780759232+24 (1, 14, 0); fields 2+24 {0:15}; \
         fields 0+3 {0:16}; fields 0+6 {0:17}; elements 16+256 (1, 18, 0); fields 0+24 {0:19}; \
         elements 20+4 (1, 20, 0); elements 8+3 (24, 21, 0); elements 8+3 (8, 22, 0)",
        (23, 0),
        "O*[541924916:O*[1018600282:O*[521171066:O*[1023630534:O*[408069863:O*[579344394:\
         O*[628503954:O*[988276535:O*[816867220:O*[681083821:O*[439378647:O*[561506770:\
         O*[349028295:O*[620556677:D*,14]]]]]]]]]]]]]]",
    )
}

fn found_unsound() -> Question {
    written(
        "scalar 3+983067543; fields 16+3 {4:0}; fields 502833734 {6:1}; \
         elements 907381896 (83232469, 2, 363465265); elements 770256718 (67108864, 3, 0); \
         elements 931633464 (132717726, 4, 0); elements 692843264+2097152 (32768, 5, 0); \
         elements 185749189+7 (163922380, 6, 0); elements 62927734+126784787 (102341313, 7, 0); \
         elements 421197863 (24, 8, 0); elements 772396664 (16, 9, 0); elements 7+8192 (7, 10, 0); \
         fields 64 {0:11}; elements 413735616 (20, 12, 0); elements 16384 (5, 13, 0); \
         elements 16 (1, 14, 0); elements 0+933975411 (1, 15, 0); fields 16 {0:16}; \
         elements 16+20 (16, 17, 0); elements 16+934624917 (1, 18, 0); \
         fields 1044689307+934624917 {0:19}; elements 8192+934624917 (16, 20, 0)",
        (21, 0),
        "O0[752157699:O0[8388608:O0[626726568:O0[32:O0[346889831:O20[330789626:O0[356454046:\
         O0[931916622:O24[4:O0[] 28:O16[] 134217728:O0[] 482981184:O0[] 543192429:O0[] \
         545954001:O1[] 772868749:O0[] 920693127:O24[28:D0,14]]]]]]]]]]",
    )
}

fn written(table: &str, (ty, at): (u32, u32), usage: &str) -> Question {
    Question { table: notation::table(table), ty, at, usage: notation::usage(usage) }
}
