//! Stand-in for the generated command types (`magnetar_proto::pb`): the messages and
//! fields that broker.rs names, in the types it uses them at. Numbers of the types that
//! PulsarApi.proto gives and that are run here are kept; the others are only distinct.

use super::bytes::Bytes;

macro_rules! messages {
    ($($name:ident { $($field:ident : $kind:ty),* $(,)? })*) => {
        $(
            #[derive(Debug, Clone, Default)]
            pub struct $name { $(pub $field: $kind),* }
        )*
    };
}

macro_rules! numbered {
    ($name:ident { $($case:ident = $number:literal),* $(,)? }) => {
        #[derive(Debug, Clone, Copy, PartialEq, Eq)]
        pub enum $name { $($case = $number),* }

        impl TryFrom<i32> for $name {
            type Error = i32;
            fn try_from(number: i32) -> Result<Self, i32> {
                match number {
                    $($number => Ok($name::$case),)*
                    other => Err(other),
                }
            }
        }
    };
}

pub mod base_command {
    numbered!(Type {
        Connect = 2, Connected = 3, Subscribe = 4, Producer = 5, Send = 6, SendReceipt = 7,
        Message = 9, Ack = 10, Flow = 11, Success = 13, Error = 14, CloseProducer = 15,
        CloseConsumer = 16, ProducerSuccess = 17, Ping = 18, Pong = 19,
        RedeliverUnacknowledgedMessages = 20, Seek = 28,
        // Not run here: numbers of our own.
        Lookup = 1001, LookupResponse = 1002, ActiveConsumerChange = 1003, AckResponse = 1004,
        TcClientConnectRequest = 1005, TcClientConnectResponse = 1006, NewTxn = 1007,
        NewTxnResponse = 1008, AddPartitionToTxn = 1009, AddPartitionToTxnResponse = 1010,
        AddSubscriptionToTxn = 1011, AddSubscriptionToTxnResponse = 1012, EndTxn = 1013,
        EndTxnResponse = 1014, ScalableTopicLookup = 1015, ScalableTopicUpdate = 1016,
        ScalableTopicSubscribe = 1017, ScalableTopicSubscribeResponse = 1018,
        ScalableTopicAssignmentUpdate = 1019, WatchScalableTopics = 1020,
        WatchScalableTopicsUpdate = 1021, WatchTcAssignments = 1022,
        WatchTcAssignmentsUpdate = 1023,
    });
}

pub mod command_subscribe {
    // broker.rs asks only whether a type is Shared; Exclusive stands for all the others.
    numbered!(SubType { Exclusive = 0, Shared = 1 });
}

pub mod command_lookup_topic_response {
    numbered!(LookupType { Connect = 1 });
}

pub mod command_watch_scalable_topics_update {
    #[derive(Debug, Clone)]
    pub enum Event {
        Snapshot(super::ScalableTopicsSnapshot),
        Diff(super::ScalableTopicsDiff),
    }
}

numbered!(TxnAction { Commit = 0 });
numbered!(SegmentState { Active = 0, Sealed = 1 });
numbered!(ServerError {
    AuthorizationError = 1, ServiceNotReady = 2, ProducerBusy = 3, TopicNotFound = 4,
});

// What the consumer side reads and writes.
messages! {
    MessageIdData {
        ledger_id: u64, entry_id: u64, partition: Option<i32>, batch_index: Option<i32>,
        ack_set: Vec<i64>, batch_size: Option<i32>,
        first_chunk_message_id: Option<Box<MessageIdData>>,
    }
    CommandSend {
        producer_id: u64, sequence_id: u64, highest_sequence_id: Option<u64>,
        message_id: Option<MessageIdData>,
    }
    CommandSendReceipt {
        producer_id: u64, sequence_id: u64, message_id: Option<MessageIdData>,
        highest_sequence_id: Option<u64>,
    }
    CommandSubscribe {
        topic: String, subscription: String, sub_type: i32, consumer_id: u64, request_id: u64,
    }
    CommandFlow { consumer_id: u64, message_permits: u32 }
    CommandAck {
        consumer_id: u64, message_id: Vec<MessageIdData>,
        txnid_least_bits: Option<u64>, txnid_most_bits: Option<u64>, request_id: Option<u64>,
    }
    CommandSeek { consumer_id: u64, request_id: u64, message_id: Option<MessageIdData> }
    CommandRedeliverUnacknowledgedMessages { consumer_id: u64, message_ids: Vec<MessageIdData> }
    CommandCloseConsumer { consumer_id: u64, request_id: u64 }
    CommandMessage {
        consumer_id: u64, message_id: MessageIdData, redelivery_count: Option<u32>,
        ack_set: Vec<i64>, consumer_epoch: Option<u64>,
    }
    EncryptionKeys {}
    MessageMetadata {
        producer_name: String, sequence_id: u64, publish_time: u64,
        encryption_keys: Vec<EncryptionKeys>, encryption_algo: Option<String>,
        encryption_param: Option<Bytes>, num_messages_in_batch: Option<i32>,
        compression: Option<i32>, uncompressed_size: Option<u32>,
    }
    CommandProducer {
        topic: String, producer_id: u64, request_id: u64, producer_name: Option<String>,
        epoch: Option<u64>,
    }
}

// The other arms of `handle_frame`: compiled, never run.
messages! {
    CommandCloseProducer { producer_id: u64, request_id: u64 }
    CommandProducerSuccess {
        request_id: u64, producer_name: String, last_sequence_id: Option<i64>,
        schema_version: Option<Bytes>, topic_epoch: Option<u64>, producer_ready: Option<bool>,
    }
    CommandSuccess { request_id: u64, schema: Option<()> }
    CommandError { request_id: u64, error: i32, message: String }
    CommandPong {}
    FeatureFlags {
        supports_scalable_topics: Option<bool>, supports_tc_metadata_discovery: Option<bool>,
    }
    CommandConnected {
        server_version: String, protocol_version: Option<i32>, max_message_size: Option<i32>,
        feature_flags: Option<FeatureFlags>,
    }
    CommandActiveConsumerChange { consumer_id: u64, is_active: Option<bool> }
    CommandAckResponse {
        consumer_id: u64, txnid_least_bits: Option<u64>, txnid_most_bits: Option<u64>,
        error: Option<i32>, message: Option<String>, request_id: Option<u64>,
    }
    CommandLookupTopic { request_id: u64 }
    CommandLookupTopicResponse {
        broker_service_url: Option<String>, broker_service_url_tls: Option<String>,
        response: Option<i32>, request_id: u64, authoritative: Option<bool>,
        error: Option<i32>, message: Option<String>, proxy_through_service_url: Option<bool>,
    }
    CommandTcClientConnectRequest { request_id: u64 }
    CommandTcClientConnectResponse {
        request_id: u64, error: Option<i32>, message: Option<String>,
    }
    CommandNewTxn { request_id: u64 }
    CommandAddPartitionToTxn {
        request_id: u64, txnid_least_bits: Option<u64>, txnid_most_bits: Option<u64>,
    }
    CommandAddSubscriptionToTxn {
        request_id: u64, txnid_least_bits: Option<u64>, txnid_most_bits: Option<u64>,
    }
    CommandEndTxn {
        request_id: u64, txnid_least_bits: Option<u64>, txnid_most_bits: Option<u64>,
        txn_action: Option<i32>,
    }
    CommandNewTxnResponse {
        request_id: u64, txnid_least_bits: Option<u64>, txnid_most_bits: Option<u64>,
        error: Option<i32>, message: Option<String>,
    }
    CommandAddPartitionToTxnResponse {
        request_id: u64, txnid_least_bits: Option<u64>, txnid_most_bits: Option<u64>,
        error: Option<i32>, message: Option<String>,
    }
    CommandAddSubscriptionToTxnResponse {
        request_id: u64, txnid_least_bits: Option<u64>, txnid_most_bits: Option<u64>,
        error: Option<i32>, message: Option<String>,
    }
    CommandEndTxnResponse {
        request_id: u64, txnid_least_bits: Option<u64>, txnid_most_bits: Option<u64>,
        error: Option<i32>, message: Option<String>,
    }
    CommandScalableTopicLookup {
        topic: String, session_id: u64, create_if_missing: Option<bool>,
    }
    CommandScalableTopicSubscribe { consumer_id: u64, request_id: u64, topic: String }
    CommandWatchScalableTopics { namespace: String, watch_id: u64 }
    CommandWatchTcAssignments { watch_id: u64 }
    SegmentInfoProto {
        segment_id: u64, hash_start: u32, hash_end: u32, state: i32, parent_ids: Vec<u64>,
        child_ids: Vec<u64>, created_at_epoch: u64, sealed_at_epoch: Option<u64>,
        created_at_ms: u64, sealed_at_ms: Option<u64>, legacy_topic_name: Option<String>,
        entry_bucket_splits: Vec<u32>,
    }
    SegmentBrokerAddress {
        segment_id: u64, broker_url: String, broker_url_tls: Option<String>,
    }
    ScalableTopicDag {
        epoch: u64, segments: Vec<SegmentInfoProto>, segment_brokers: Vec<SegmentBrokerAddress>,
        controller_broker_url: Option<String>, controller_broker_url_tls: Option<String>,
    }
    CommandScalableTopicUpdate {
        session_id: u64, dag: Option<ScalableTopicDag>, error: Option<i32>,
        message: Option<String>, resolved_topic_name: Option<String>,
    }
    ScalableAssignedSegment {
        bucket_ranges: Vec<u32>, segment_id: u64, hash_start: u32, hash_end: u32,
        segment_topic: String,
    }
    ScalableConsumerAssignment { layout_epoch: u64, segments: Vec<ScalableAssignedSegment> }
    CommandScalableTopicSubscribeResponse {
        request_id: u64, error: Option<i32>, message: Option<String>,
        assignment: Option<ScalableConsumerAssignment>,
    }
    CommandScalableTopicAssignmentUpdate {
        consumer_id: u64, assignment: ScalableConsumerAssignment,
    }
    ScalableTopicsSnapshot { topics: Vec<String> }
    ScalableTopicsDiff { added: Vec<String>, removed: Vec<String> }
    CommandWatchScalableTopicsUpdate {
        watch_id: u64, error: Option<i32>, message: Option<String>,
        event: Option<command_watch_scalable_topics_update::Event>,
    }
    TcAssignment {
        tc_id: u64, broker_service_url: Option<String>, broker_service_url_tls: Option<String>,
    }
    TcAssignmentsSnapshot { parallelism: u32, assignments: Vec<TcAssignment> }
    CommandWatchTcAssignmentsUpdate {
        watch_id: u64, snapshot: Option<TcAssignmentsSnapshot>, error: Option<i32>,
        message: Option<String>,
    }
}

impl CommandScalableTopicLookup {
    pub fn create_if_missing(&self) -> bool {
        self.create_if_missing.unwrap_or(true)
    }
}

messages! {
    BaseCommand {
        r#type: i32,
        connected: Option<CommandConnected>,
        subscribe: Option<CommandSubscribe>,
        producer: Option<CommandProducer>,
        send: Option<CommandSend>,
        send_receipt: Option<CommandSendReceipt>,
        message: Option<CommandMessage>,
        ack: Option<CommandAck>,
        flow: Option<CommandFlow>,
        success: Option<CommandSuccess>,
        error: Option<CommandError>,
        close_producer: Option<CommandCloseProducer>,
        close_consumer: Option<CommandCloseConsumer>,
        producer_success: Option<CommandProducerSuccess>,
        pong: Option<CommandPong>,
        redeliver_unacknowledged_messages: Option<CommandRedeliverUnacknowledgedMessages>,
        seek: Option<CommandSeek>,
        lookup_topic: Option<CommandLookupTopic>,
        lookup_topic_response: Option<CommandLookupTopicResponse>,
        active_consumer_change: Option<CommandActiveConsumerChange>,
        ack_response: Option<CommandAckResponse>,
        tc_client_connect_request: Option<CommandTcClientConnectRequest>,
        tc_client_connect_response: Option<CommandTcClientConnectResponse>,
        new_txn: Option<CommandNewTxn>,
        new_txn_response: Option<CommandNewTxnResponse>,
        add_partition_to_txn: Option<CommandAddPartitionToTxn>,
        add_partition_to_txn_response: Option<CommandAddPartitionToTxnResponse>,
        add_subscription_to_txn: Option<CommandAddSubscriptionToTxn>,
        add_subscription_to_txn_response: Option<CommandAddSubscriptionToTxnResponse>,
        end_txn: Option<CommandEndTxn>,
        end_txn_response: Option<CommandEndTxnResponse>,
        scalable_topic_lookup: Option<CommandScalableTopicLookup>,
        scalable_topic_update: Option<CommandScalableTopicUpdate>,
        scalable_topic_subscribe: Option<CommandScalableTopicSubscribe>,
        scalable_topic_subscribe_response: Option<CommandScalableTopicSubscribeResponse>,
        scalable_topic_assignment_update: Option<CommandScalableTopicAssignmentUpdate>,
        watch_scalable_topics: Option<CommandWatchScalableTopics>,
        watch_scalable_topics_update: Option<CommandWatchScalableTopicsUpdate>,
        watch_tc_assignments: Option<CommandWatchTcAssignments>,
        watch_tc_assignments_update: Option<CommandWatchTcAssignmentsUpdate>,
    }
}
