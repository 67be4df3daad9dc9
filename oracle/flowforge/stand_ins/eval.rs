//! `evaluate` without a simulation: the policy of a new sender is shown to the host, who answers.

use crate::{
    ccas::remy::{rule_tree::AugmentedRuleTree, rule_tree::CountingRuleTree, RemyCca},
    flow::{FlowProperties, NoActiveFlows, NoPacketsAcked, UtilityFunction},
    harness::{ask, Asked},
    quantities::{bits_per_second, seconds, Float, TimeSpan},
    util::{rand::Rng, OfLifetime},
    Cca, Network, NetworkDistribution,
};

#[derive(Clone, Debug)]
pub struct EvaluationConfig {
    pub network_samples: u32,
    pub run_sim_for: TimeSpan,
}

impl Default for EvaluationConfig {
    fn default() -> Self {
        EvaluationConfig {
            network_samples: 0,
            run_sim_for: seconds(0.),
        }
    }
}

pub trait Shown {
    fn shown<R>(&self, to: impl FnOnce(Asked<'_>) -> R) -> R;
}

impl Shown for RemyCca<&CountingRuleTree<'_>> {
    fn shown<R>(&self, to: impl FnOnce(Asked<'_>) -> R) -> R {
        let counting = self.policy_in_use();
        to(Asked::Counts {
            tree: counting.field_tree(),
            counts: counting.field_counts(),
        })
    }
}

impl Shown for RemyCca<&AugmentedRuleTree<'_>> {
    fn shown<R>(&self, to: impl FnOnce(Asked<'_>) -> R) -> R {
        let augmented = self.policy_in_use();
        let (leaf, action) = augmented.field_rule_override();
        to(Asked::Score {
            tree: augmented.field_tree(),
            leaf: *leaf,
            action,
        })
    }
}

impl EvaluationConfig {
    pub fn evaluate<C, G, B>(
        &self,
        new_cca: impl Fn() -> C,
        _: &impl NetworkDistribution<G, Network = B>,
        _: &(impl UtilityFunction + ?Sized),
        _: &mut Rng,
    ) -> Result<(Float, FlowProperties), NoActiveFlows>
    where
        B: Network<G>,
        C: Cca + Shown,
        G: OfLifetime,
    {
        let nothing_flowed = FlowProperties {
            throughput: bits_per_second(0.),
            rtt: Err(NoPacketsAcked),
        };
        Ok((new_cca().shown(ask), nothing_flowed))
    }
}
