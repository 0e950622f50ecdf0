//! Smaller requests than a given one: parts of its lists are left out.

use crate::form::Request;

/// Into how many parts a list is cut at most; shorter lists are cut into single
/// points or bytes.
const MOST_PARTS: usize = 64;

/// The request with a half of one of its lists left out, a quarter, and so on; the
/// smallest ones first.
pub fn smaller(request: &Request) -> Vec<Request> {
    let mut requests = Vec::new();
    match request {
        Request::Picture { bytes } => {
            let shorter = shorter(bytes, 1).into_iter();
            requests.extend(shorter.map(|bytes| Request::Picture { bytes }));
        }
        _ => {
            for which in 0..2 {
                let mut copy = request.clone();
                let Some(list) = list_of(&mut copy, which).cloned() else {
                    break;
                };
                for shorter in shorter(&list, 2) {
                    let mut copy = copy.clone();
                    *list_of(&mut copy, which).expect("it has that list") = shorter;
                    requests.push(copy);
                }
            }
        }
    }
    requests.sort_by_cached_key(|request| request.line().len());
    requests
}

/// The first or the second list of points of a request.
fn list_of(request: &mut Request, which: usize) -> Option<&mut Vec<i32>> {
    match request {
        Request::Rebuild {
            corners, missing, ..
        } => Some(if which == 0 { corners } else { missing }),
        Request::Order { list, .. }
        | Request::Hull { list, .. }
        | Request::Verdict { list, .. }
        | Request::Report { list, .. }
        | Request::Figures { list, .. }
        | Request::RowEnds { list, .. }
        | Request::Row { list, .. } => (which == 0).then_some(list),
        Request::Picture { .. } => None,
    }
}

/// A list without one of its parts, for parts of several lengths that are whole
/// points of `unit` numbers.
fn shorter<T: Clone>(list: &[T], unit: usize) -> Vec<Vec<T>> {
    let mut lists = Vec::new();
    let mut parts = 2;
    loop {
        let length = list.len().div_ceil(parts).next_multiple_of(unit);
        for part in list.chunks(length.max(1)).enumerate() {
            let begin = part.0 * length;
            lists.push([&list[..begin], &list[begin + part.1.len()..]].concat());
        }
        if length <= unit || parts >= MOST_PARTS {
            return lists;
        }
        parts *= 2;
    }
}
