//! Which reads go on in order, and how far the kernel was told what comes.

/// So many players of a film are followed.
const PLAYERS: usize = 8;
/// A read that begins this near to where the last one ended goes on in order: several are under
/// way at once.
const NEAR: u64 = 2 << 20;

struct Player {
    /// The end of the bytes that were read.
    end: u64,
    /// The units that the kernel was told of last: their first, and the one after them.
    told: (u64, u64),
}

/// The players of a film, the last one first.
#[derive(Default)]
pub struct Players(Vec<Player>);

/// What is to be done for a read.
#[derive(Debug, PartialEq, Eq)]
pub struct Turn {
    pub in_order: bool,
    /// The unit from which on the kernel is to be told.
    pub ahead: Option<u64>,
}

impl Players {
    /// Takes a read of bytes of a unit. The kernel is told of units when those that it was told of
    /// before are begun; `end_of` says where those from a unit on end.
    pub fn turn(&mut self, at: u64, len: u64, unit: u64, end_of: impl Fn(u64) -> u64) -> Turn {
        let near = |player: &Player| at.abs_diff(player.end) <= NEAR;
        let found = self.0.iter().position(near);
        let mut player = match found {
            Some(place) => self.0.remove(place),
            None => Player { end: at, told: (unit, unit + 1) },
        };
        player.end = player.end.max(at + len);
        let mut ahead = None;
        if found.is_some() && unit >= player.told.0 {
            let next = player.told.1.max(unit + 1);
            player.told = (next, end_of(next));
            ahead = Some(next);
        }
        self.0.truncate(PLAYERS - 1);
        self.0.insert(0, player);
        Turn { in_order: found.is_some(), ahead }
    }
}

#[cfg(test)]
mod tests {
    use super::*;

    const UNIT: u64 = 4 << 20;

    /// Whether a read of a MiB is in order, and what is told, by batches of four units.
    fn turn(players: &mut Players, at: u64) -> (bool, Option<u64>) {
        let turn = players.turn(at, 1 << 20, at / UNIT, |unit| (unit / 4 + 1) * 4);
        (turn.in_order, turn.ahead)
    }

    #[test]
    fn each_batch_is_told_once_and_before_it_is_read() {
        let mut players = Players::default();
        let told: Vec<u64> = (0..64).filter_map(|mib| turn(&mut players, mib << 20).1).collect();
        assert_eq!(told, [1, 4, 8, 12, 16]);
    }

    #[test]
    fn two_players_are_told_apart_and_jumps_are_not_in_order() {
        let mut players = Players::default();
        let far = 1 << 30;
        assert_eq!([turn(&mut players, 0).0, turn(&mut players, far).0], [false; 2]);
        assert_eq!(
            [turn(&mut players, 1 << 20).0, turn(&mut players, far + (1 << 20)).0],
            [true; 2]
        );
        assert!(!turn(&mut players, 3 << 30).0);
        for place in 10..10 + PLAYERS as u64 {
            turn(&mut players, place << 30);
        }
        assert!(!turn(&mut players, 2 << 20).0); // nobody remembers the first
        assert!(players.0.len() <= PLAYERS);
    }
}
