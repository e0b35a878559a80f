//! How often each of some named sorts occurred.

/// Gives a struct of counts, one for each of a table's sorts (a name and a
/// test), what is asked of them.
macro_rules! counts_of {
    ($counts:ident, $sorts:ident) => {
        impl $counts {
            /// Adds what occurred elsewhere.
            pub fn join(&mut self, other: &$counts) {
                for (count, more) in self.0.iter_mut().zip(other.0) {
                    *count += more;
                }
            }

            /// How often the sort of this name occurred.
            ///
            /// # Panics
            ///
            /// If there is none.
            pub fn count(&self, name: &str) -> u64 {
                let at = $sorts.iter().position(|(sort, _)| *sort == name);
                self.0[at.unwrap_or_else(|| panic!("no sort {name}"))]
            }

            /// The sorts that occurred less often than this.
            pub fn rarer(&self, times: u64) -> Vec<&'static str> {
                let counted = self.0.iter().zip($sorts);
                let rare = counted.filter(|(&count, _)| count < times);
                rare.map(|(_, (name, _))| name).collect()
            }
        }

        impl std::fmt::Debug for $counts {
            fn fmt(&self, f: &mut std::fmt::Formatter) -> std::fmt::Result {
                let names = $sorts.iter().map(|(name, _)| name);
                f.debug_map().entries(names.zip(&self.0)).finish()
            }
        }
    };
}
