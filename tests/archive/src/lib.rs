//! The tests in `tests/suite` are all that this package has. They call the
//! archive through `yurzhoad::archive`.
