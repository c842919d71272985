//! Stand-in for `enum_map`: a value for each case of an enum, in the order of the cases.

use std::ops::{Index, IndexMut};

/// What the derive of the real crate gives, written by hand for each enum.
pub trait Enum: Copy + 'static {
    /// All cases, in order.
    const ALL: &'static [Self];

    /// The position of a case in `ALL`.
    fn position(self) -> usize;
}

#[derive(Clone, Debug)]
pub struct EnumMap<K: Enum, V> {
    values: Vec<V>,
    keys: &'static [K],
}

impl<K: Enum, V> EnumMap<K, V> {
    pub fn iter(&self) -> impl Iterator<Item = (K, &V)> {
        self.keys.iter().copied().zip(&self.values)
    }
}

impl<K: Enum, V: Default> Default for EnumMap<K, V> {
    fn default() -> Self {
        let values = K::ALL.iter().map(|_| V::default()).collect();
        EnumMap {
            values,
            keys: K::ALL,
        }
    }
}

impl<K: Enum, V> Index<K> for EnumMap<K, V> {
    type Output = V;

    fn index(&self, key: K) -> &V {
        &self.values[key.position()]
    }
}

impl<K: Enum, V> IndexMut<K> for EnumMap<K, V> {
    fn index_mut(&mut self, key: K) -> &mut V {
        &mut self.values[key.position()]
    }
}

#[cfg(test)]
mod tests {
    use super::{Enum, EnumMap};

    #[derive(Clone, Copy, Debug, PartialEq)]
    enum Side {
        Left,
        Right,
    }

    impl Enum for Side {
        const ALL: &'static [Side] = &[Side::Left, Side::Right];

        fn position(self) -> usize {
            self as usize
        }
    }

    #[test]
    fn values_stand_under_their_keys_in_order() {
        let mut map: EnumMap<Side, u8> = EnumMap::default();
        map[Side::Right] = 3;
        assert_eq!(map[Side::Left], 0);
        assert_eq!(
            map.iter().collect::<Vec<_>>(),
            [(Side::Left, &0), (Side::Right, &3)]
        );
    }
}
