//! The simulation is left out; its builder is named in a trait's signature.

use std::marker::PhantomData;

pub struct SimulatorBuilder<'sim, 'a, E>(PhantomData<(&'sim (), &'a (), E)>);
