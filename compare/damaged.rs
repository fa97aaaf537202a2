
// Appended to 005 as it stands, for compare/swaps.rs: 005's fields are private, and damaged states are stepped too.
impl Permutations {
    pub fn damaged(ks: Vec<usize>, i: usize) -> Permutations {
        Permutations { ks, i }
    }

    pub fn counters(&self) -> &[usize] {
        &self.ks
    }

    pub fn position(&self) -> usize {
        self.i
    }
}
