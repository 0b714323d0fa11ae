//! Supervariables are left out.
