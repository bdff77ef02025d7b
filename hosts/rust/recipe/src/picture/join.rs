//! Joins what is too narrow, or too near, to be told apart.

/// What reaches from one x to another, or several of those that stand side by side.
#[derive(Clone, Copy, Debug, PartialEq)]
pub struct Piece<T> {
    pub left: f64,
    pub right: f64,
    pub first: T,
    pub last: T,
    pub count: usize,
    /// The width of those that weigh.
    pub weight: f64,
    /// Whether it may be joined, as each part was narrow.
    narrow: bool,
}

impl<T: Copy> Piece<T> {
    pub fn new(left: f64, right: f64, item: T, weighs: bool) -> Piece<T> {
        let weight = if weighs { right - left } else { 0.0 };
        Piece { left, right, first: item, last: item, count: 1, weight, narrow: false }
    }

    fn add(&mut self, next: Piece<T>) {
        self.right = self.right.max(next.right);
        self.last = next.last;
        self.count += next.count;
        self.weight += next.weight;
    }
}

/// Joins pieces side by side that are narrower than the grain, with gaps narrower than it, up to a width. They come by
/// their left ends.
pub fn join<T: Copy>(pieces: impl Iterator<Item = Piece<T>>, grain: f64, widest: f64) -> Vec<Piece<T>> {
    let mut joined: Vec<Piece<T>> = Vec::new();
    for mut piece in pieces {
        piece.narrow = piece.right - piece.left < grain;
        let near = |last: &&mut Piece<T>| piece.narrow && last.narrow && piece.left - last.right < grain;
        if let Some(last) = joined.last_mut().filter(near) {
            if piece.right - last.left < widest {
                last.add(piece);
                continue;
            }
            piece.left = last.right;
        }
        joined.push(piece);
    }
    joined
}

/// Joins the points that are nearer to the one before than a space.
pub fn cluster<T: Copy>(points: impl Iterator<Item = (f64, T)>, space: f64) -> Vec<Piece<T>> {
    join(points.map(|(x, item)| Piece::new(x, x, item, false)), space, f64::INFINITY)
}

/// Lets through what is not too near to the last one let through.
#[derive(Clone, Copy, Debug)]
pub struct Sieve {
    space: f64,
    last: f64,
}

impl Sieve {
    pub fn new(space: f64) -> Sieve {
        Sieve { space, last: f64::NEG_INFINITY }
    }

    pub fn passes(&mut self, x: f64) -> bool {
        let passes = x - self.last >= self.space;
        if passes {
            self.last = x;
        }
        passes
    }
}

#[cfg(test)]
mod tests {
    use super::*;

    fn pieces(spans: &[(f64, f64)], grain: f64, widest: f64) -> Vec<Piece<()>> {
        join(spans.iter().map(|(left, right)| Piece::new(*left, *right, (), true)), grain, widest)
    }

    fn joined(spans: &[(f64, f64)], grain: f64) -> Vec<(f64, f64, usize)> {
        let pieces = pieces(spans, grain, 100.0);
        pieces.iter().map(|piece| (piece.left, piece.right, piece.count)).collect()
    }

    #[test]
    fn narrow_spans_are_joined_and_wide_ones_kept() {
        let spans = [(0.0, 0.5), (0.5, 1.2), (1.2, 3.0), (3.0, 3.5), (5.0, 5.5), (5.75, 6.0)];
        assert_eq!(joined(&spans, 1.0), [(0.0, 1.2, 2), (1.2, 3.0, 1), (3.0, 3.5, 1), (5.0, 6.0, 2)]);
        assert_eq!(joined(&spans, 0.0).len(), spans.len());
        assert_eq!(joined(&spans, 9.0), [(0.0, 6.0, 6)]);
    }

    #[test]
    fn joined_pieces_keep_to_a_width_and_have_their_weight() {
        let spans: Vec<_> = (0..100).map(f64::from).map(|x| (x, x + 0.5)).collect();
        let columns = pieces(&spans, 1.0, 8.0);
        assert_eq!(columns.len(), 15);
        assert!(columns.windows(2).all(|pair| pair[0].right == pair[1].left));
        assert!(columns.iter().all(|column| column.right - column.left < 8.0));
        assert!(columns.iter().all(|column| column.weight == 0.5 * column.count as f64));
        assert_eq!(columns.iter().map(|column| column.count).sum::<usize>(), 100);
    }

    #[test]
    fn near_points_are_joined() {
        let pieces = cluster([0.0, 1.0, 3.0, 3.0].into_iter().zip(0..), 2.0);
        let found: Vec<_> = pieces.iter().map(|piece| (piece.left, piece.right, piece.first, piece.last)).collect();
        assert_eq!(found, [(0.0, 1.0, 0, 1), (3.0, 3.0, 2, 3)]);
        assert_eq!(cluster([1.0, 1.0].into_iter().zip(0..), 0.0).len(), 2);
    }

    #[test]
    fn a_sieve_keeps_the_space() {
        let mut sieve = Sieve::new(2.0);
        assert_eq!([0.0, 1.0, 2.0, 3.5, 4.0].map(|x| sieve.passes(x)), [true, false, true, false, true]);
    }
}
