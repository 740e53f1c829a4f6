//! The topics of clients: channels, patterns of channels, and sharded channels. A sharded channel is another one than the channel
//! of its name, and has its messages at the same partitions.

use std::collections::BTreeSet;

/// The kinds of topics.
#[derive(Clone, Copy, Debug, PartialEq, Eq, PartialOrd, Ord, Hash)]
pub enum Sort {
    Channel,
    Pattern,
    Shard,
}

/// All of them, with the command that begins a subscription and the one that ends it.
const SORTS: [(Sort, &str, &str); 3] = [
    (Sort::Channel, "subscribe", "unsubscribe"),
    (Sort::Pattern, "psubscribe", "punsubscribe"),
    (Sort::Shard, "ssubscribe", "sunsubscribe"),
];

impl Sort {
    /// The one that a command is about, and whether it begins a subscription.
    pub fn of(command: &[u8]) -> Option<(Sort, bool)> {
        SORTS.iter().find_map(|(sort, begin, end)| {
            let is_begin = command.eq_ignore_ascii_case(begin.as_bytes());
            (is_begin || command.eq_ignore_ascii_case(end.as_bytes())).then_some((*sort, is_begin))
        })
    }

    /// The command that begins a subscription, or ends it.
    pub fn verb(self, is_begin: bool) -> &'static str {
        let (_, begin, end) = SORTS[self as usize];
        if is_begin {
            begin
        } else {
            end
        }
    }
}

/// A topic to which a client subscribes.
#[derive(Clone, PartialEq, Eq, PartialOrd, Ord, Hash)]
pub struct Topic {
    pub sort: Sort,
    /// Its name.
    pub name: Vec<u8>,
}

impl Topic {
    /// The topic of that name.
    pub fn new(sort: Sort, name: &[u8]) -> Topic {
        Topic { sort, name: name.to_vec() }
    }

    /// About how many bytes a worker holds for it and a client.
    fn cost(&self) -> usize {
        4 * (self.name.len() + 64)
    }

    /// Whether it is one of the server's own, over which a mover receives news of keys.
    pub fn is_own(name: &[u8]) -> bool {
        name.starts_with(b"__key")
    }
}

/// Subscriptions that a client has ended. The answer waits until partitions have confirmed it: else they would count the client
/// for a moment.
pub struct Ending {
    /// The answer.
    pub answer: Vec<u8>,
    /// The requests by partition.
    pub due: Vec<(u32, u64)>,
}

/// All that a client subscribes to.
#[derive(Default)]
pub struct Topics {
    all: BTreeSet<Topic>,
    shards: usize,
    /// How many bytes of memory they take.
    pub held: usize,
}

impl Topics {
    /// Whether there are no topics.
    pub fn is_empty(&self) -> bool {
        self.all.is_empty()
    }

    /// Whether it is one of them.
    pub fn contains(&self, topic: &Topic) -> bool {
        self.all.contains(topic)
    }

    /// How many there are, in answers about that sort: sharded channels count apart.
    pub fn count(&self, sort: Sort) -> usize {
        match sort {
            Sort::Shard => self.shards,
            Sort::Channel | Sort::Pattern => self.all.len() - self.shards,
        }
    }

    /// Adds one, unless it is there.
    pub fn insert(&mut self, topic: Topic) {
        let (sort, cost) = (topic.sort, topic.cost());
        if self.all.insert(topic) {
            self.held += cost;
            self.shards += usize::from(sort == Sort::Shard);
        }
    }

    /// Removes one: whether it was there.
    pub fn remove(&mut self, topic: &Topic) -> bool {
        let was_there = self.all.remove(topic);
        if was_there {
            self.held -= topic.cost();
            self.shards -= usize::from(topic.sort == Sort::Shard);
        }
        was_there
    }

    /// The names of those of a sort.
    pub fn names(&self, sort: Sort) -> Vec<Vec<u8>> {
        self.all.iter().filter(|topic| topic.sort == sort).map(|topic| topic.name.clone()).collect()
    }
}

impl IntoIterator for Topics {
    type Item = Topic;
    type IntoIter = <BTreeSet<Topic> as IntoIterator>::IntoIter;

    fn into_iter(self) -> Self::IntoIter {
        self.all.into_iter()
    }
}

#[cfg(test)]
mod tests {
    use super::*;

    #[test]
    fn verbs_are_found() {
        for (sort, begin, end) in SORTS {
            assert_eq!(
                (Sort::of(begin.as_bytes()), Sort::of(end.as_bytes())),
                (Some((sort, true)), Some((sort, false)))
            );
            assert_eq!((sort.verb(true), sort.verb(false)), (begin, end));
        }
        assert_eq!((Sort::of(b"SSubscribe"), Sort::of(b"publish")), (Some((Sort::Shard, true)), None));
        assert!(Topic::is_own(b"__keyevent@0__:new") && !Topic::is_own(b"_key"));
    }

    #[test]
    fn sharded_channels_count_apart() {
        let mut topics = Topics::default();
        for sort in [Sort::Shard, Sort::Channel, Sort::Pattern, Sort::Channel] {
            topics.insert(Topic::new(sort, b"a"));
        }
        assert_eq!((topics.count(Sort::Shard), topics.count(Sort::Channel)), (1, 2));
        assert!(
            topics.remove(&Topic::new(Sort::Shard, b"a")) && !topics.remove(&Topic::new(Sort::Shard, b"a"))
        );
        assert_eq!((topics.count(Sort::Shard), topics.count(Sort::Pattern)), (0, 2));
        assert_eq!(topics.names(Sort::Channel), [b"a"]);
        topics.remove(&Topic::new(Sort::Channel, b"a"));
        topics.remove(&Topic::new(Sort::Pattern, b"a"));
        assert!(topics.is_empty() && topics.held == 0);
    }
}
