// In place of the generated message types, which the rewrite leaves out. The module lies inside
// `ccas::remy`, so it may read and set what a sender keeps private there.

pub mod remy_dna {
    use protobuf::{Message, MessageField};

    #[derive(Clone, Debug, Default, PartialEq)]
    pub struct Memory {
        rec_rec_ewma: f64,
        rec_send_ewma: f64,
        rtt_ratio: f64,
    }

    impl Memory {
        pub fn new() -> Memory {
            Memory::default()
        }

        pub fn rec_rec_ewma(&self) -> f64 {
            self.rec_rec_ewma
        }

        pub fn rec_send_ewma(&self) -> f64 {
            self.rec_send_ewma
        }

        pub fn rtt_ratio(&self) -> f64 {
            self.rtt_ratio
        }

        pub fn set_rec_rec_ewma(&mut self, value: f64) {
            self.rec_rec_ewma = value;
        }

        pub fn set_rec_send_ewma(&mut self, value: f64) {
            self.rec_send_ewma = value;
        }

        pub fn set_rtt_ratio(&mut self, value: f64) {
            self.rtt_ratio = value;
        }
    }

    #[derive(Clone, Debug, Default, PartialEq)]
    pub struct MemoryRange {
        pub lower: MessageField<Memory>,
        pub upper: MessageField<Memory>,
    }

    impl MemoryRange {
        pub fn new() -> MemoryRange {
            MemoryRange::default()
        }
    }

    #[derive(Clone, Debug, Default, PartialEq)]
    pub struct Whisker {
        pub domain: MessageField<MemoryRange>,
        intersend: f64,
        window_increment: i32,
        window_multiple: f64,
    }

    impl Whisker {
        pub fn new() -> Whisker {
            Whisker::default()
        }

        pub fn intersend(&self) -> f64 {
            self.intersend
        }

        pub fn window_increment(&self) -> i32 {
            self.window_increment
        }

        pub fn window_multiple(&self) -> f64 {
            self.window_multiple
        }

        pub fn set_intersend(&mut self, value: f64) {
            self.intersend = value;
        }

        pub fn set_window_increment(&mut self, value: i32) {
            self.window_increment = value;
        }

        pub fn set_window_multiple(&mut self, value: f64) {
            self.window_multiple = value;
        }
    }

    #[derive(Clone, Debug, Default, PartialEq)]
    pub struct WhiskerTree {
        pub domain: MessageField<MemoryRange>,
        pub leaf: MessageField<Whisker>,
        pub children: Vec<WhiskerTree>,
    }

    impl WhiskerTree {
        pub fn new() -> WhiskerTree {
            WhiskerTree::default()
        }
    }

    impl Message for WhiskerTree {}
}

mod held {
    use crate::{
        ccas::remy::{RemyCca, RemyCwndSettings, RemyPolicy, Rtt},
        harness::{moment, seconds_of, SenderState},
        quantities::{seconds, TimeSpan},
        util::meters::EWMA,
    };

    fn average(value: Option<f64>) -> EWMA<TimeSpan> {
        let mut average = EWMA::new(1. / 8.);
        if let Some(value) = value {
            average.update(seconds(value));
        }
        average
    }

    impl<T: RemyPolicy> RemyCca<T> {
        pub fn policy_in_use(&self) -> &T {
            &self.policy
        }

        pub fn held(&self) -> SenderState {
            SenderState {
                last_ack: self.last_ack.map(seconds_of),
                last_sent: self.last_ack_send.map(seconds_of),
                ack_average: self.ack_ewma.value().map(TimeSpan::seconds),
                send_average: self.send_ewma.value().map(TimeSpan::seconds),
                round_trips: self
                    .rtt
                    .as_ref()
                    .map(|rtt| (rtt.min.seconds(), rtt.current.seconds())),
                pending: self.next_change.clone(),
                window: self.current_settings.cwnd,
                wait: self.current_settings.intersend_delay.seconds(),
                send: self.last_send.map(seconds_of),
            }
        }

        pub fn hold(&mut self, state: &SenderState) {
            self.last_ack = state.last_ack.map(moment);
            self.last_ack_send = state.last_sent.map(moment);
            self.ack_ewma = average(state.ack_average);
            self.send_ewma = average(state.send_average);
            self.rtt = state.round_trips.map(|(min, current)| Rtt {
                min: seconds(min),
                current: seconds(current),
            });
            self.next_change = state.pending.clone();
            self.current_settings = RemyCwndSettings {
                cwnd: state.window,
                intersend_delay: seconds(state.wait),
            };
            self.last_send = state.send.map(moment);
        }
    }
}
