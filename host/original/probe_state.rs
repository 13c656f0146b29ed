// ---- Not ciplink's: what the comparison reads, keeps and plants of the fields that are private to this file.

/// What produce and a hand-over change.
#[derive(Clone, Copy)]
pub(crate) struct Sent {
    pub produces: bool,
    pub sequence: u32,
    pub cip_sequence: u16,
    pub next_due: Instant,
}

/// What the originator's frames change.
#[derive(Clone, Copy)]
pub(crate) struct Heard {
    pub last_rx: Instant,
    pub last_sequence: Option<u32>,
    pub last_cip_sequence: Option<u16>,
}

impl IoConn {
    pub(crate) fn sent(&self) -> Sent {
        Sent {
            produces: self.produces,
            sequence: self.sequence,
            cip_sequence: self.cip_sequence,
            next_due: self.next_due,
        }
    }

    pub(crate) fn set_sent(&mut self, sent: Sent) {
        self.produces = sent.produces;
        self.sequence = sent.sequence;
        self.cip_sequence = sent.cip_sequence;
        self.next_due = sent.next_due;
    }

    pub(crate) fn heard(&self) -> Heard {
        Heard { last_rx: self.last_rx, last_sequence: self.last_sequence, last_cip_sequence: self.last_cip_sequence }
    }

    pub(crate) fn set_last_rx(&mut self, time: Instant) {
        self.last_rx = time;
    }

    pub(crate) fn timeout(&self) -> Duration {
        self.timeout
    }
}

impl AssemblyState {
    pub(crate) fn notified(&self) -> bool {
        self.notified
    }
}

impl State {
    pub(crate) fn next_id(&self) -> u32 {
        self.next_id
    }

    /// A copy to ask what a call would answer: without the EDS and the events, which no such answer reads.
    pub(crate) fn copy_to_ask(&self) -> State {
        State {
            config: AdapterConfig {
                eds: None,
                ..AdapterConfig {
                    identity: self.config.identity.clone(),
                    assemblies: self.config.assemblies.clone(),
                    eds: None,
                    eds_name: String::new(),
                    app_name: String::new(),
                    app_version: String::new(),
                    ..self.config
                }
            },
            assemblies: self
                .assemblies
                .iter()
                .map(|a| AssemblyState {
                    instance: a.instance,
                    kind: a.kind,
                    data: a.data.clone(),
                    run: a.run,
                    notified: a.notified,
                })
                .collect(),
            conns: self.conns.clone(),
            faulted: self.faulted,
            events: VecDeque::new(),
            stats: self.stats,
            detail: String::new(),
            next_id: self.next_id,
        }
    }
}
