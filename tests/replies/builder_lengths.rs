//! Bodies that are not chunked, since their length is said.
use crate::builders::Setter::{
    Add, ContentType, ForceClose, KeepAlive, NoChunking, Reason, Set, Status, TryAppend, TryInsert,
    Upgrade,
};
use crate::builders::{BuilderCase, End, ITEM, JSON, OCTETS, assert_case};

/// Lengths without other headers.
const ALONE: &[BuilderCase] = &[
    BuilderCase {
        setters: &[NoChunking(18446744073709551615)],
        replies: &[(
            End::Streaming,
            &[
                "200 no-chunking",
                "content-length: 18446744073709551615",
                OCTETS,
                "sized 18446744073709551615 ab stall",
            ],
        )],
    },
    BuilderCase {
        setters: &[NoChunking(18446744073709551615), Reason(""), KeepAlive],
        replies: &[
            (
                End::Body,
                &[
                    "200 () keep-alive no-chunking",
                    "content-length: 18446744073709551615",
                    "bytes x",
                ],
            ),
            (
                End::Json,
                &[
                    "200 () keep-alive no-chunking",
                    "content-length: 18446744073709551615",
                    JSON,
                    ITEM,
                ],
            ),
        ],
    },
    BuilderCase {
        setters: &[NoChunking(5)],
        replies: &[
            (
                End::Body,
                &["200 no-chunking", "content-length: 5", "bytes x"],
            ),
            (
                End::Streaming,
                &[
                    "200 no-chunking",
                    "content-length: 5",
                    OCTETS,
                    "sized 5 ab stall",
                ],
            ),
        ],
    },
    BuilderCase {
        setters: &[ForceClose, NoChunking(5)],
        replies: &[(
            End::Json,
            &["200 close no-chunking", "content-length: 5", JSON, ITEM],
        )],
    },
    BuilderCase {
        setters: &[KeepAlive, NoChunking(5), KeepAlive],
        replies: &[
            (
                End::Body,
                &["200 keep-alive no-chunking", "content-length: 5", "bytes x"],
            ),
            (
                End::Streaming,
                &[
                    "200 keep-alive no-chunking",
                    "content-length: 5",
                    OCTETS,
                    "sized 5 ab stall",
                ],
            ),
        ],
    },
    BuilderCase {
        setters: &[
            NoChunking(18446744073709551615),
            KeepAlive,
            KeepAlive,
            ForceClose,
            Reason("Fine"),
        ],
        replies: &[
            (
                End::Finish,
                &[
                    "200 (Fine) close no-chunking",
                    "content-length: 18446744073709551615",
                    "empty",
                ],
            ),
            (
                End::Body,
                &[
                    "200 (Fine) close no-chunking",
                    "content-length: 18446744073709551615",
                    "bytes x",
                ],
            ),
        ],
    },
    BuilderCase {
        setters: &[NoChunking(0), NoChunking(0)],
        replies: &[
            (
                End::Finish,
                &["200 no-chunking", "content-length: 0", "empty"],
            ),
            (
                End::Body,
                &["200 no-chunking", "content-length: 0", "bytes x"],
            ),
            (
                End::Json,
                &["200 no-chunking", "content-length: 0", JSON, ITEM],
            ),
        ],
    },
    BuilderCase {
        setters: &[NoChunking(18446744073709551615), Status(404)],
        replies: &[(
            End::Finish,
            &[
                "404 no-chunking",
                "content-length: 18446744073709551615",
                "empty",
            ],
        )],
    },
    BuilderCase {
        setters: &[NoChunking(18446744073709551615), Status(200)],
        replies: &[(
            End::Json,
            &[
                "200 no-chunking",
                "content-length: 18446744073709551615",
                JSON,
                ITEM,
            ],
        )],
    },
];

#[test]
fn a_body_whose_length_is_said_is_not_chunked(rt: HostRuntime) {
    for case in ALONE {
        assert_case(&rt, rt.alloc(), case);
    }
}

/// Lengths beside other headers, and beside one that was set before.
const WITH_HEADERS: &[BuilderCase] = &[
    BuilderCase {
        setters: &[NoChunking(5), Add("a", " 7 ")],
        replies: &[(
            End::Streaming,
            &[
                "200 no-chunking",
                "content-length: 5",
                "a:  7 ",
                OCTETS,
                "sized 5 ab stall",
            ],
        )],
    },
    BuilderCase {
        setters: &[
            NoChunking(18446744073709551615),
            Upgrade("a\nb"),
            Reason("Fine"),
            Add("content-length", ""),
            TryInsert("A-b", "3"),
        ],
        replies: &[(
            End::Json,
            &[
                "200 (Fine) upgrade no-chunking",
                "content-length: 18446744073709551615",
                "content-length: ",
                "a-b: 3",
                JSON,
                ITEM,
            ],
        )],
    },
    BuilderCase {
        setters: &[NoChunking(0), TryAppend("content-type", "x y"), Reason("")],
        replies: &[
            (
                End::Finish,
                &[
                    "200 () no-chunking",
                    "content-length: 0",
                    "content-type: x y",
                    "empty",
                ],
            ),
            (
                End::Body,
                &[
                    "200 () no-chunking",
                    "content-length: 0",
                    "content-type: x y",
                    "bytes x",
                ],
            ),
            (
                End::Json,
                &[
                    "200 () no-chunking",
                    "content-length: 0",
                    "content-type: x y",
                    ITEM,
                ],
            ),
            (
                End::Streaming,
                &[
                    "200 () no-chunking",
                    "content-length: 0",
                    "content-type: x y",
                    "sized 0 ab stall",
                ],
            ),
        ],
    },
    BuilderCase {
        setters: &[
            Status(201),
            NoChunking(0),
            NoChunking(18446744073709551615),
            Upgrade("a\nb"),
        ],
        replies: &[
            (
                End::Finish,
                &[
                    "201 upgrade no-chunking",
                    "content-length: 18446744073709551615",
                    "empty",
                ],
            ),
            (
                End::Json,
                &[
                    "201 upgrade no-chunking",
                    "content-length: 18446744073709551615",
                    JSON,
                    ITEM,
                ],
            ),
            (
                End::Streaming,
                &[
                    "201 upgrade no-chunking",
                    "content-length: 18446744073709551615",
                    OCTETS,
                    "sized 18446744073709551615 ab stall",
                ],
            ),
        ],
    },
    BuilderCase {
        setters: &[
            Add("A-b", "x y"),
            ForceClose,
            NoChunking(18446744073709551615),
        ],
        replies: &[
            (
                End::Body,
                &[
                    "200 close no-chunking",
                    "a-b: x y",
                    "content-length: 18446744073709551615",
                    "bytes x",
                ],
            ),
            (
                End::Json,
                &[
                    "200 close no-chunking",
                    "a-b: x y",
                    "content-length: 18446744073709551615",
                    JSON,
                    ITEM,
                ],
            ),
            (
                End::Streaming,
                &[
                    "200 close no-chunking",
                    "a-b: x y",
                    "content-length: 18446744073709551615",
                    OCTETS,
                    "sized 18446744073709551615 ab stall",
                ],
            ),
        ],
    },
    BuilderCase {
        setters: &[KeepAlive, Upgrade("text/x"), NoChunking(5)],
        replies: &[
            (
                End::Finish,
                &[
                    "200 upgrade no-chunking",
                    "upgrade: text/x",
                    "content-length: 5",
                    "empty",
                ],
            ),
            (
                End::Body,
                &[
                    "200 upgrade no-chunking",
                    "upgrade: text/x",
                    "content-length: 5",
                    "bytes x",
                ],
            ),
        ],
    },
    BuilderCase {
        setters: &[
            TryInsert("content-length", "3"),
            ForceClose,
            ForceClose,
            NoChunking(18446744073709551615),
            Upgrade("a\nb"),
        ],
        replies: &[
            (
                End::Json,
                &[
                    "200 upgrade no-chunking",
                    "content-length: 18446744073709551615",
                    JSON,
                    ITEM,
                ],
            ),
            (
                End::Streaming,
                &[
                    "200 upgrade no-chunking",
                    "content-length: 18446744073709551615",
                    OCTETS,
                    "sized 18446744073709551615 ab stall",
                ],
            ),
        ],
    },
    BuilderCase {
        setters: &[KeepAlive, NoChunking(0), Reason(""), ContentType("text/x")],
        replies: &[
            (
                End::Body,
                &[
                    "200 () keep-alive no-chunking",
                    "content-length: 0",
                    "content-type: text/x",
                    "bytes x",
                ],
            ),
            (
                End::Json,
                &[
                    "200 () keep-alive no-chunking",
                    "content-length: 0",
                    "content-type: text/x",
                    ITEM,
                ],
            ),
        ],
    },
    BuilderCase {
        setters: &[
            TryInsert("content-type", "x y"),
            TryAppend("content-type", "x y"),
            ContentType(""),
            NoChunking(5),
        ],
        replies: &[
            (
                End::Body,
                &[
                    "200 no-chunking",
                    "content-type: ",
                    "content-length: 5",
                    "bytes x",
                ],
            ),
            (
                End::Streaming,
                &[
                    "200 no-chunking",
                    "content-type: ",
                    "content-length: 5",
                    "sized 5 ab stall",
                ],
            ),
        ],
    },
    BuilderCase {
        setters: &[Set("content-type", "x y"), NoChunking(18446744073709551615)],
        replies: &[
            (
                End::Body,
                &[
                    "200 no-chunking",
                    "content-type: x y",
                    "content-length: 18446744073709551615",
                    "bytes x",
                ],
            ),
            (
                End::Json,
                &[
                    "200 no-chunking",
                    "content-type: x y",
                    "content-length: 18446744073709551615",
                    ITEM,
                ],
            ),
            (
                End::Streaming,
                &[
                    "200 no-chunking",
                    "content-type: x y",
                    "content-length: 18446744073709551615",
                    "sized 18446744073709551615 ab stall",
                ],
            ),
        ],
    },
];

#[test]
fn a_length_stands_beside_other_headers(rt: HostRuntime) {
    for case in WITH_HEADERS {
        assert_case(&rt, rt.alloc(), case);
    }
}
