//! What builders say of the connection: the last call decides.
use crate::builders::Setter::{
    Add, ContentType, ForceClose, KeepAlive, Reason, Set, Status, TryAppend, TryInsert, Upgrade,
};
use crate::builders::{BuilderCase, End, ITEM, JSON, OCTETS, assert_case};

/// Connections that are kept or closed.
const KEPT_OR_CLOSED: &[BuilderCase] = &[
    BuilderCase {
        setters: &[KeepAlive, TryInsert("A-b", "")],
        replies: &[(End::Json, &["200 keep-alive", "a-b: ", JSON, ITEM])],
    },
    BuilderCase {
        setters: &[KeepAlive],
        replies: &[
            (End::Body, &["200 keep-alive", "bytes x"]),
            (
                End::Streaming,
                &["200 keep-alive", OCTETS, "stream ab stall"],
            ),
        ],
    },
    BuilderCase {
        setters: &[KeepAlive, ForceClose, ContentType("websocket"), ForceClose],
        replies: &[
            (
                End::Body,
                &["200 close", "content-type: websocket", "bytes x"],
            ),
            (End::Json, &["200 close", "content-type: websocket", ITEM]),
        ],
    },
    BuilderCase {
        setters: &[KeepAlive, ForceClose],
        replies: &[
            (End::Body, &["200 close", "bytes x"]),
            (End::Json, &["200 close", JSON, ITEM]),
            (End::Streaming, &["200 close", OCTETS, "stream ab stall"]),
        ],
    },
    BuilderCase {
        setters: &[
            ForceClose,
            ForceClose,
            TryAppend("a", "3"),
            ForceClose,
            ContentType(""),
        ],
        replies: &[(End::Json, &["200 close", "a: 3", "content-type: ", ITEM])],
    },
    BuilderCase {
        setters: &[
            TryInsert("content-type", "3"),
            ForceClose,
            Reason("Fine"),
            KeepAlive,
        ],
        replies: &[
            (
                End::Finish,
                &["200 (Fine) keep-alive", "content-type: 3", "empty"],
            ),
            (
                End::Json,
                &["200 (Fine) keep-alive", "content-type: 3", ITEM],
            ),
            (
                End::Streaming,
                &[
                    "200 (Fine) keep-alive",
                    "content-type: 3",
                    "stream ab stall",
                ],
            ),
        ],
    },
    BuilderCase {
        setters: &[
            Add("A-b", "3"),
            Status(500),
            ForceClose,
            KeepAlive,
            Status(500),
        ],
        replies: &[
            (End::Finish, &["500 keep-alive", "a-b: 3", "empty"]),
            (
                End::Streaming,
                &["500 keep-alive", "a-b: 3", OCTETS, "stream ab stall"],
            ),
        ],
    },
    BuilderCase {
        setters: &[
            TryInsert("content-length", " 7 "),
            Status(200),
            TryInsert("content-type", "3"),
            TryInsert("a", "1"),
            KeepAlive,
        ],
        replies: &[
            (
                End::Finish,
                &[
                    "200 keep-alive",
                    "content-length:  7 ",
                    "content-type: 3",
                    "a: 1",
                    "empty",
                ],
            ),
            (
                End::Streaming,
                &[
                    "200 keep-alive",
                    "content-length:  7 ",
                    "content-type: 3",
                    "a: 1",
                    "stream ab stall",
                ],
            ),
        ],
    },
    BuilderCase {
        setters: &[KeepAlive, TryInsert("content-length", "3")],
        replies: &[
            (
                End::Finish,
                &["200 keep-alive", "content-length: 3", "empty"],
            ),
            (
                End::Body,
                &["200 keep-alive", "content-length: 3", "bytes x"],
            ),
            (
                End::Json,
                &["200 keep-alive", "content-length: 3", JSON, ITEM],
            ),
            (
                End::Streaming,
                &[
                    "200 keep-alive no-chunking",
                    "content-length: 3",
                    OCTETS,
                    "sized 3 ab stall",
                ],
            ),
        ],
    },
    BuilderCase {
        setters: &[TryInsert("a", ""), KeepAlive, KeepAlive],
        replies: &[
            (End::Finish, &["200 keep-alive", "a: ", "empty"]),
            (End::Json, &["200 keep-alive", "a: ", JSON, ITEM]),
        ],
    },
    BuilderCase {
        setters: &[ContentType("websocket"), ForceClose],
        replies: &[
            (
                End::Body,
                &["200 close", "content-type: websocket", "bytes x"],
            ),
            (End::Json, &["200 close", "content-type: websocket", ITEM]),
        ],
    },
    BuilderCase {
        setters: &[ForceClose, Status(404)],
        replies: &[
            (End::Json, &["404 close", JSON, ITEM]),
            (End::Streaming, &["404 close", OCTETS, "stream ab stall"]),
        ],
    },
];

#[test]
fn a_connection_is_kept_or_closed(rt: HostRuntime) {
    for case in KEPT_OR_CLOSED {
        assert_case(&rt, rt.alloc(), case);
    }
}

/// Upgrades, also with a value that is left out since it may not stand in a header.
const UPGRADED: &[BuilderCase] = &[
    BuilderCase {
        setters: &[Set("a", ""), Upgrade(""), Upgrade("text/x")],
        replies: &[
            (
                End::Finish,
                &["200 upgrade", "a: ", "upgrade: text/x", "empty"],
            ),
            (
                End::Body,
                &["200 upgrade", "a: ", "upgrade: text/x", "bytes x"],
            ),
            (
                End::Streaming,
                &[
                    "200 upgrade",
                    "a: ",
                    "upgrade: text/x",
                    OCTETS,
                    "stream ab stall",
                ],
            ),
        ],
    },
    BuilderCase {
        setters: &[Upgrade(""), KeepAlive],
        replies: &[
            (End::Finish, &["200 keep-alive", "upgrade: ", "empty"]),
            (
                End::Streaming,
                &["200 keep-alive", "upgrade: ", OCTETS, "stream ab stall"],
            ),
        ],
    },
    BuilderCase {
        setters: &[ForceClose, Upgrade("text/x"), Upgrade("a\nb")],
        replies: &[(
            End::Streaming,
            &["200 upgrade", "upgrade: text/x", OCTETS, "stream ab stall"],
        )],
    },
    BuilderCase {
        setters: &[Status(201), Upgrade("a\nb")],
        replies: &[
            (End::Finish, &["201 upgrade", "empty"]),
            (End::Body, &["201 upgrade", "bytes x"]),
            (End::Json, &["201 upgrade", JSON, ITEM]),
            (End::Streaming, &["201 upgrade", OCTETS, "stream ab stall"]),
        ],
    },
    BuilderCase {
        setters: &[Upgrade("websocket"), TryInsert("a", "3")],
        replies: &[
            (
                End::Body,
                &["200 upgrade", "upgrade: websocket", "a: 3", "bytes x"],
            ),
            (
                End::Json,
                &["200 upgrade", "upgrade: websocket", "a: 3", JSON, ITEM],
            ),
            (
                End::Streaming,
                &[
                    "200 upgrade",
                    "upgrade: websocket",
                    "a: 3",
                    OCTETS,
                    "stream ab stall",
                ],
            ),
        ],
    },
    BuilderCase {
        setters: &[TryInsert("a", ""), Upgrade("text/x"), Reason("")],
        replies: &[
            (
                End::Body,
                &["200 () upgrade", "a: ", "upgrade: text/x", "bytes x"],
            ),
            (
                End::Json,
                &["200 () upgrade", "a: ", "upgrade: text/x", JSON, ITEM],
            ),
            (
                End::Streaming,
                &[
                    "200 () upgrade",
                    "a: ",
                    "upgrade: text/x",
                    OCTETS,
                    "stream ab stall",
                ],
            ),
        ],
    },
    BuilderCase {
        setters: &[Upgrade("websocket"), TryInsert("content-type", "")],
        replies: &[(
            End::Finish,
            &[
                "200 upgrade",
                "upgrade: websocket",
                "content-type: ",
                "empty",
            ],
        )],
    },
    BuilderCase {
        setters: &[ForceClose, Upgrade("a\nb"), Set("content-type", "")],
        replies: &[
            (End::Body, &["200 upgrade", "content-type: ", "bytes x"]),
            (End::Json, &["200 upgrade", "content-type: ", ITEM]),
        ],
    },
    BuilderCase {
        setters: &[ForceClose, Upgrade("a\nb"), Upgrade("text/x")],
        replies: &[
            (End::Finish, &["200 upgrade", "upgrade: text/x", "empty"]),
            (End::Json, &["200 upgrade", "upgrade: text/x", JSON, ITEM]),
            (
                End::Streaming,
                &["200 upgrade", "upgrade: text/x", OCTETS, "stream ab stall"],
            ),
        ],
    },
    BuilderCase {
        setters: &[ForceClose, KeepAlive, Reason("Fine"), Upgrade("text/x")],
        replies: &[(
            End::Finish,
            &["200 (Fine) upgrade", "upgrade: text/x", "empty"],
        )],
    },
    BuilderCase {
        setters: &[Upgrade("a\nb"), Status(500), ContentType("")],
        replies: &[
            (End::Json, &["500 upgrade", "content-type: ", ITEM]),
            (
                End::Streaming,
                &["500 upgrade", "content-type: ", "stream ab stall"],
            ),
        ],
    },
    BuilderCase {
        setters: &[Upgrade("text/x")],
        replies: &[
            (End::Finish, &["200 upgrade", "upgrade: text/x", "empty"]),
            (End::Json, &["200 upgrade", "upgrade: text/x", JSON, ITEM]),
            (
                End::Streaming,
                &["200 upgrade", "upgrade: text/x", OCTETS, "stream ab stall"],
            ),
        ],
    },
    BuilderCase {
        setters: &[Upgrade(""), ForceClose],
        replies: &[(End::Body, &["200 close", "upgrade: ", "bytes x"])],
    },
    BuilderCase {
        setters: &[Upgrade("text/x"), Set("A-b", "3")],
        replies: &[
            (
                End::Finish,
                &["200 upgrade", "upgrade: text/x", "a-b: 3", "empty"],
            ),
            (
                End::Body,
                &["200 upgrade", "upgrade: text/x", "a-b: 3", "bytes x"],
            ),
        ],
    },
];

#[test]
fn a_connection_is_upgraded(rt: HostRuntime) {
    for case in UPGRADED {
        assert_case(&rt, rt.alloc(), case);
    }
}
