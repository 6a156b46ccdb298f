//! Statuses, reasons, headers and cookies that builders set.
use crate::builders::Setter::{
    Add, ContentType, Cookie, KeepAlive, NoChunking, Reason, Set, Status, TryAppend, TryInsert,
    Upgrade,
};
use crate::builders::{BuilderCase, End, ITEM, JSON, OCTETS, assert_case};

/// Statuses, reasons and headers, each name where it was first set.
const HEADERS: &[BuilderCase] = &[
    BuilderCase {
        setters: &[],
        replies: &[
            (End::Finish, &["200", "empty"]),
            (End::Body, &["200", "bytes x"]),
        ],
    },
    BuilderCase {
        setters: &[TryInsert("a", "1"), Add("content-length", "ÿ"), Status(201)],
        replies: &[
            (End::Json, &["201", "a: 1", "content-length: ÿ", JSON, ITEM]),
            (
                End::Streaming,
                &[
                    "201",
                    "a: 1",
                    "content-length: ÿ",
                    OCTETS,
                    "stream ab stall",
                ],
            ),
        ],
    },
    BuilderCase {
        setters: &[Add("A-b", ""), Add("content-length", "x y")],
        replies: &[
            (
                End::Finish,
                &["200", "a-b: ", "content-length: x y", "empty"],
            ),
            (
                End::Body,
                &["200", "a-b: ", "content-length: x y", "bytes x"],
            ),
            (
                End::Streaming,
                &[
                    "200",
                    "a-b: ",
                    "content-length: x y",
                    OCTETS,
                    "stream ab stall",
                ],
            ),
        ],
    },
    BuilderCase {
        setters: &[Reason("Fine"), Reason("")],
        replies: &[
            (End::Finish, &["200 ()", "empty"]),
            (End::Json, &["200 ()", JSON, ITEM]),
            (End::Streaming, &["200 ()", OCTETS, "stream ab stall"]),
        ],
    },
    BuilderCase {
        setters: &[TryInsert("content-type", "")],
        replies: &[
            (End::Finish, &["200", "content-type: ", "empty"]),
            (End::Body, &["200", "content-type: ", "bytes x"]),
        ],
    },
    BuilderCase {
        setters: &[Reason("")],
        replies: &[
            (End::Finish, &["200 ()", "empty"]),
            (End::Body, &["200 ()", "bytes x"]),
            (End::Streaming, &["200 ()", OCTETS, "stream ab stall"]),
        ],
    },
    BuilderCase {
        setters: &[TryAppend("content-length", " 7 "), TryAppend("a", "3")],
        replies: &[(
            End::Json,
            &["200", "content-length:  7 ", "a: 3", JSON, ITEM],
        )],
    },
    BuilderCase {
        setters: &[Reason("Fine")],
        replies: &[
            (End::Finish, &["200 (Fine)", "empty"]),
            (End::Body, &["200 (Fine)", "bytes x"]),
            (End::Streaming, &["200 (Fine)", OCTETS, "stream ab stall"]),
        ],
    },
    BuilderCase {
        setters: &[Status(404), Set("content-length", "3")],
        replies: &[
            (End::Body, &["404", "content-length: 3", "bytes x"]),
            (End::Json, &["404", "content-length: 3", JSON, ITEM]),
            (
                End::Streaming,
                &[
                    "404 no-chunking",
                    "content-length: 3",
                    OCTETS,
                    "sized 3 ab stall",
                ],
            ),
        ],
    },
    BuilderCase {
        setters: &[TryAppend("a", "x y")],
        replies: &[
            (End::Json, &["200", "a: x y", JSON, ITEM]),
            (
                End::Streaming,
                &["200", "a: x y", OCTETS, "stream ab stall"],
            ),
        ],
    },
    BuilderCase {
        setters: &[Status(500), Add("content-type", "1")],
        replies: &[(End::Body, &["500", "content-type: 1", "bytes x"])],
    },
    BuilderCase {
        setters: &[TryAppend("a", " 7 ")],
        replies: &[
            (End::Finish, &["200", "a:  7 ", "empty"]),
            (End::Json, &["200", "a:  7 ", JSON, ITEM]),
            (
                End::Streaming,
                &["200", "a:  7 ", OCTETS, "stream ab stall"],
            ),
        ],
    },
    BuilderCase {
        setters: &[
            Status(500),
            ContentType("text/x"),
            Set("content-length", "ÿ"),
        ],
        replies: &[
            (
                End::Body,
                &[
                    "500",
                    "content-type: text/x",
                    "content-length: ÿ",
                    "bytes x",
                ],
            ),
            (
                End::Json,
                &["500", "content-type: text/x", "content-length: ÿ", ITEM],
            ),
        ],
    },
    BuilderCase {
        setters: &[Reason(""), ContentType("text/x")],
        replies: &[
            (End::Finish, &["200 ()", "content-type: text/x", "empty"]),
            (End::Body, &["200 ()", "content-type: text/x", "bytes x"]),
        ],
    },
    BuilderCase {
        setters: &[Status(200)],
        replies: &[(End::Body, &["200", "bytes x"])],
    },
    BuilderCase {
        setters: &[Status(200), Set("content-length", ""), Add("a", "x y")],
        replies: &[(
            End::Json,
            &["200", "content-length: ", "a: x y", JSON, ITEM],
        )],
    },
];

#[test]
fn headers_stand_where_they_were_set(rt: HostRuntime) {
    for case in HEADERS {
        assert_case(&rt, rt.alloc(), case);
    }
}

/// Cookies beside other headers.
const COOKIES: &[BuilderCase] = &[
    BuilderCase {
        setters: &[NoChunking(0), Status(201), Cookie("a=b")],
        replies: &[
            (
                End::Finish,
                &[
                    "201 no-chunking",
                    "content-length: 0",
                    "set-cookie: a=b",
                    "empty",
                ],
            ),
            (
                End::Body,
                &[
                    "201 no-chunking",
                    "content-length: 0",
                    "set-cookie: a=b",
                    "bytes x",
                ],
            ),
            (
                End::Streaming,
                &[
                    "201 no-chunking",
                    "content-length: 0",
                    "set-cookie: a=b",
                    OCTETS,
                    "sized 0 ab stall",
                ],
            ),
        ],
    },
    BuilderCase {
        setters: &[
            Cookie("a=b"),
            TryInsert("content-type", "1"),
            NoChunking(5),
            Upgrade(""),
        ],
        replies: &[(
            End::Streaming,
            &[
                "200 upgrade no-chunking",
                "set-cookie: a=b",
                "content-type: 1",
                "content-length: 5",
                "upgrade: ",
                "sized 5 ab stall",
            ],
        )],
    },
    BuilderCase {
        setters: &[Reason(""), TryAppend("A-b", "x y"), Cookie("a=b")],
        replies: &[
            (
                End::Finish,
                &["200 ()", "a-b: x y", "set-cookie: a=b", "empty"],
            ),
            (
                End::Body,
                &["200 ()", "a-b: x y", "set-cookie: a=b", "bytes x"],
            ),
        ],
    },
    BuilderCase {
        setters: &[
            Cookie("a=b"),
            TryAppend("content-length", "x y"),
            NoChunking(18446744073709551615),
        ],
        replies: &[
            (
                End::Finish,
                &[
                    "200 no-chunking",
                    "set-cookie: a=b",
                    "content-length: 18446744073709551615",
                    "empty",
                ],
            ),
            (
                End::Json,
                &[
                    "200 no-chunking",
                    "set-cookie: a=b",
                    "content-length: 18446744073709551615",
                    JSON,
                    ITEM,
                ],
            ),
            (
                End::Streaming,
                &[
                    "200 no-chunking",
                    "set-cookie: a=b",
                    "content-length: 18446744073709551615",
                    OCTETS,
                    "sized 18446744073709551615 ab stall",
                ],
            ),
        ],
    },
    BuilderCase {
        setters: &[Cookie("a=b; Secure"), Add("a", " 7 ")],
        replies: &[(
            End::Streaming,
            &[
                "200",
                "set-cookie: a=b; Secure",
                "a:  7 ",
                OCTETS,
                "stream ab stall",
            ],
        )],
    },
    BuilderCase {
        setters: &[Cookie("a=b; Secure")],
        replies: &[
            (End::Body, &["200", "set-cookie: a=b; Secure", "bytes x"]),
            (
                End::Streaming,
                &["200", "set-cookie: a=b; Secure", OCTETS, "stream ab stall"],
            ),
        ],
    },
    BuilderCase {
        setters: &[KeepAlive, Cookie("a=b")],
        replies: &[(End::Body, &["200 keep-alive", "set-cookie: a=b", "bytes x"])],
    },
    BuilderCase {
        setters: &[KeepAlive, Add("a", "ÿ"), KeepAlive, Cookie("a=b")],
        replies: &[
            (
                End::Finish,
                &["200 keep-alive", "a: ÿ", "set-cookie: a=b", "empty"],
            ),
            (
                End::Json,
                &["200 keep-alive", "a: ÿ", "set-cookie: a=b", JSON, ITEM],
            ),
        ],
    },
    BuilderCase {
        setters: &[Cookie("a=b")],
        replies: &[
            (End::Json, &["200", "set-cookie: a=b", JSON, ITEM]),
            (
                End::Streaming,
                &["200", "set-cookie: a=b", OCTETS, "stream ab stall"],
            ),
        ],
    },
    BuilderCase {
        setters: &[
            Status(500),
            Set("a", ""),
            Cookie("a=b; Secure"),
            Status(500),
        ],
        replies: &[
            (
                End::Json,
                &["500", "a: ", "set-cookie: a=b; Secure", JSON, ITEM],
            ),
            (
                End::Streaming,
                &[
                    "500",
                    "a: ",
                    "set-cookie: a=b; Secure",
                    OCTETS,
                    "stream ab stall",
                ],
            ),
        ],
    },
    BuilderCase {
        setters: &[ContentType(""), KeepAlive, Cookie("a=b")],
        replies: &[
            (
                End::Finish,
                &[
                    "200 keep-alive",
                    "content-type: ",
                    "set-cookie: a=b",
                    "empty",
                ],
            ),
            (
                End::Body,
                &[
                    "200 keep-alive",
                    "content-type: ",
                    "set-cookie: a=b",
                    "bytes x",
                ],
            ),
            (
                End::Streaming,
                &[
                    "200 keep-alive",
                    "content-type: ",
                    "set-cookie: a=b",
                    "stream ab stall",
                ],
            ),
        ],
    },
];

#[test]
fn cookies_stand_beside_headers(rt: HostRuntime) {
    for case in COOKIES {
        assert_case(&rt, rt.alloc(), case);
    }
}
