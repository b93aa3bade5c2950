//! Stand-in for the clock object, which no task source uses.
