//! Which claim a moment breaks.

#[derive(Clone, Copy, Debug, PartialEq, Eq, Hash)]
pub enum Violation {
    /// Something is there right after setup.
    SetupNotEmpty,
    /// A rejected step changed the state.
    ChangedByRejection,
    /// A replica of an installed configuration is gone.
    Vanished,
    /// A replica's stable prefix lost or changed an entry.
    Shrinks,
    /// Two stable prefixes of a shard, at this or at an earlier moment, do not begin one another.
    Disagrees,
    /// An entry became stable that no accepted add offered.
    NotOffered,
    /// An entry became stable twice.
    Twice,
    /// A configuration is not the first issue for its shard and index.
    NotFirstIssue,
    /// A history holds two issues for one shard and index.
    SecondIssue,
    /// A step was rejected because an earlier issue has its shard and index (22).
    EarlierIssue,
    /// A replica did not begin pending, and then with the history and stable length of an accepted inherit's source, or
    /// of an accepted catch-up's peer that had begun before.
    WrongBeginning,
    /// A replica's origin is not the host that it, or the peer that it caught up from, began from.
    OtherOrigin,
    /// The replica that an origin names is not immutable, or not as it was when it was inherited from.
    SourceChanged,
    /// A replica that was immutable is not as it was.
    ImmutableChanged,
    /// A configuration that another one follows has no immutable replica, so that nobody can inherit from it.
    NoSource,
}
