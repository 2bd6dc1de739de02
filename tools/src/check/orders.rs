//! Orders of templates, each after those that it names.

/// An order of all of them, as near to the given one as may be; none where some name each other in a ring.
pub fn whole_order(edges: &[Vec<usize>]) -> Option<Vec<usize>> {
    let mut order: Vec<usize> = Vec::new();
    while order.len() < edges.len() {
        let ready = |n: &usize| !order.contains(n) && edges[*n].iter().all(|named| order.contains(named));
        order.push((0..edges.len()).find(ready)?);
    }
    Some(order)
}

/// A shortest way from one to another, each naming the next, with both ends.
pub fn path(from: usize, to: usize, edges: &[Vec<usize>]) -> Option<Vec<usize>> {
    let mut ways = vec![vec![from]];
    let mut seen = vec![from];
    while !ways.is_empty() {
        let mut longer = Vec::new();
        for way in ways {
            let last = way[way.len() - 1];
            if last == to {
                return Some(way);
            }
            for next in &edges[last] {
                if !seen.contains(next) {
                    seen.push(*next);
                    longer.push([&way[..], &[*next]].concat());
                }
            }
        }
        ways = longer;
    }
    None
}

#[cfg(test)]
mod tests {
    use super::*;

    #[test]
    fn orders() {
        assert_eq!(whole_order(&[vec![1], vec![], vec![0]]), Some(vec![1, 0, 2]));
        assert_eq!(whole_order(&[vec![], vec![0], vec![]]), Some(vec![0, 1, 2]));
        assert_eq!(whole_order(&[vec![1], vec![0]]), None);
        assert_eq!(whole_order(&[]), Some(vec![]));
    }

    #[test]
    fn paths() {
        let ring = [vec![1, 2], vec![2], vec![0], vec![]];
        assert_eq!(path(1, 0, &ring), Some(vec![1, 2, 0]));
        assert_eq!(path(3, 0, &ring), None);
    }
}
