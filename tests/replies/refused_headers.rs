//! Names and values of headers that builders refuse: the first refusal is the reply.
use crate::builders::Setter::{
    Add, ContentType, Cookie, ForceClose, KeepAlive, NoChunking, Reason, Set, Status, TryAppend,
    TryInsert, Upgrade,
};
use crate::builders::{BuilderCase, End, REFUSED_NAME, REFUSED_VALUE, assert_case};

/// Names that are inserted or appended.
const TRIED_NAMES: &[BuilderCase] = &[
    BuilderCase {
        setters: &[
            Upgrade(""),
            TryInsert("", "1"),
            Reason(""),
            TryAppend("A-b", "\0"),
        ],
        replies: &[(End::Body, REFUSED_NAME)],
    },
    BuilderCase {
        setters: &[NoChunking(0), TryAppend("", "3")],
        replies: &[
            (End::Finish, REFUSED_NAME),
            (End::Body, REFUSED_NAME),
            (End::Json, REFUSED_NAME),
        ],
    },
    BuilderCase {
        setters: &[
            TryInsert("", "1"),
            Set("content-type", "3"),
            Upgrade("websocket"),
        ],
        replies: &[(End::Json, REFUSED_NAME), (End::Streaming, REFUSED_NAME)],
    },
    BuilderCase {
        setters: &[TryInsert("", "x y")],
        replies: &[
            (End::Finish, REFUSED_NAME),
            (End::Body, REFUSED_NAME),
            (End::Json, REFUSED_NAME),
        ],
    },
    BuilderCase {
        setters: &[ContentType(""), TryAppend("", "1"), Upgrade("websocket")],
        replies: &[(End::Body, REFUSED_NAME), (End::Streaming, REFUSED_NAME)],
    },
    BuilderCase {
        setters: &[
            Status(201),
            TryInsert("", "a\nb"),
            Reason("Fine"),
            ContentType("text/x"),
            NoChunking(0),
        ],
        replies: &[(End::Finish, REFUSED_NAME), (End::Streaming, REFUSED_NAME)],
    },
    BuilderCase {
        setters: &[ForceClose, ForceClose, TryAppend("", " 7 ")],
        replies: &[(End::Finish, REFUSED_NAME), (End::Streaming, REFUSED_NAME)],
    },
    BuilderCase {
        setters: &[TryAppend("", " 7 ")],
        replies: &[
            (End::Finish, REFUSED_NAME),
            (End::Body, REFUSED_NAME),
            (End::Streaming, REFUSED_NAME),
        ],
    },
    BuilderCase {
        setters: &[KeepAlive, TryInsert("a b", "\0"), NoChunking(5), ForceClose],
        replies: &[(End::Json, REFUSED_NAME), (End::Streaming, REFUSED_NAME)],
    },
    BuilderCase {
        setters: &[
            TryInsert("a b", "3"),
            Set("A-b", "\0"),
            Set("content-length", "a\nb"),
        ],
        replies: &[(End::Json, REFUSED_NAME)],
    },
    BuilderCase {
        setters: &[TryAppend("a b", "x y"), TryAppend("A-b", "x y"), ForceClose],
        replies: &[(End::Json, REFUSED_NAME), (End::Streaming, REFUSED_NAME)],
    },
    BuilderCase {
        setters: &[TryInsert("", "3")],
        replies: &[
            (End::Finish, REFUSED_NAME),
            (End::Body, REFUSED_NAME),
            (End::Json, REFUSED_NAME),
            (End::Streaming, REFUSED_NAME),
        ],
    },
    BuilderCase {
        setters: &[TryAppend("a b", "1"), Status(404), Upgrade("text/x")],
        replies: &[(End::Finish, REFUSED_NAME), (End::Json, REFUSED_NAME)],
    },
    BuilderCase {
        setters: &[Set("content-length", " 7 "), TryInsert("", "")],
        replies: &[(End::Finish, REFUSED_NAME), (End::Streaming, REFUSED_NAME)],
    },
    BuilderCase {
        setters: &[
            TryAppend("", "x y"),
            Add("a b", "a\nb"),
            ForceClose,
            Add("content-type", "a\nb"),
            Cookie("a=b"),
        ],
        replies: &[
            (End::Finish, REFUSED_NAME),
            (End::Body, REFUSED_NAME),
            (End::Json, REFUSED_NAME),
        ],
    },
    BuilderCase {
        setters: &[TryInsert("a b", "\0")],
        replies: &[(End::Json, REFUSED_NAME)],
    },
    BuilderCase {
        setters: &[
            Status(500),
            TryInsert("a b", "1"),
            Set("content-length", " 7 "),
            Reason("Fine"),
        ],
        replies: &[
            (End::Finish, REFUSED_NAME),
            (End::Body, REFUSED_NAME),
            (End::Streaming, REFUSED_NAME),
        ],
    },
    BuilderCase {
        setters: &[Cookie("a=b"), TryInsert("", "\0"), Add("a b", "\0")],
        replies: &[(End::Finish, REFUSED_NAME), (End::Streaming, REFUSED_NAME)],
    },
    BuilderCase {
        setters: &[
            ContentType("websocket"),
            TryInsert("", "3"),
            KeepAlive,
            Cookie("a=\n"),
        ],
        replies: &[
            (End::Body, REFUSED_NAME),
            (End::Json, REFUSED_NAME),
            (End::Streaming, REFUSED_NAME),
        ],
    },
    BuilderCase {
        setters: &[
            TryInsert("", "\0"),
            Reason(""),
            ForceClose,
            TryAppend("A-b", "x y"),
        ],
        replies: &[(End::Json, REFUSED_NAME)],
    },
    BuilderCase {
        setters: &[TryInsert("a b", "a\nb"), Cookie("a=\n"), Cookie("a=\n")],
        replies: &[
            (End::Body, REFUSED_NAME),
            (End::Json, REFUSED_NAME),
            (End::Streaming, REFUSED_NAME),
        ],
    },
    BuilderCase {
        setters: &[TryAppend("a b", "x y")],
        replies: &[
            (End::Finish, REFUSED_NAME),
            (End::Body, REFUSED_NAME),
            (End::Streaming, REFUSED_NAME),
        ],
    },
];

#[test]
fn a_name_that_is_tried_and_refused_is_the_reply(rt: HostRuntime) {
    for case in TRIED_NAMES {
        assert_case(&rt, rt.alloc(), case);
    }
}

/// Names that are set or added.
const SET_NAMES: &[BuilderCase] = &[
    BuilderCase {
        setters: &[Reason("Fine"), Set("", "")],
        replies: &[
            (End::Finish, REFUSED_NAME),
            (End::Json, REFUSED_NAME),
            (End::Streaming, REFUSED_NAME),
        ],
    },
    BuilderCase {
        setters: &[Reason(""), Add("A-b", ""), Add("", "")],
        replies: &[(End::Finish, REFUSED_NAME), (End::Streaming, REFUSED_NAME)],
    },
    BuilderCase {
        setters: &[Status(200), Set("a b", " 7 ")],
        replies: &[(End::Streaming, REFUSED_NAME)],
    },
    BuilderCase {
        setters: &[Set("a b", "3"), Reason(""), Set("content-type", "1")],
        replies: &[(End::Finish, REFUSED_NAME), (End::Streaming, REFUSED_NAME)],
    },
    BuilderCase {
        setters: &[KeepAlive, Add("", "1"), TryInsert("a b", "\0")],
        replies: &[
            (End::Finish, REFUSED_NAME),
            (End::Json, REFUSED_NAME),
            (End::Streaming, REFUSED_NAME),
        ],
    },
    BuilderCase {
        setters: &[
            NoChunking(0),
            TryInsert("content-length", "1"),
            Set("", " 7 "),
        ],
        replies: &[
            (End::Finish, REFUSED_NAME),
            (End::Body, REFUSED_NAME),
            (End::Streaming, REFUSED_NAME),
        ],
    },
    BuilderCase {
        setters: &[Add("a b", "1")],
        replies: &[(End::Body, REFUSED_NAME)],
    },
    BuilderCase {
        setters: &[KeepAlive, Set("", "a\nb"), Cookie("a=b"), ForceClose],
        replies: &[(End::Streaming, REFUSED_NAME)],
    },
    BuilderCase {
        setters: &[Status(201), Status(404), Set("a b", "ÿ")],
        replies: &[
            (End::Finish, REFUSED_NAME),
            (End::Body, REFUSED_NAME),
            (End::Streaming, REFUSED_NAME),
        ],
    },
    BuilderCase {
        setters: &[
            ContentType("websocket"),
            Add("a b", ""),
            NoChunking(5),
            Status(404),
        ],
        replies: &[(End::Body, REFUSED_NAME), (End::Streaming, REFUSED_NAME)],
    },
    BuilderCase {
        setters: &[KeepAlive, Add("", "\0"), Upgrade("text/x")],
        replies: &[
            (End::Finish, REFUSED_NAME),
            (End::Json, REFUSED_NAME),
            (End::Streaming, REFUSED_NAME),
        ],
    },
];

#[test]
fn a_name_that_is_set_and_refused_is_the_reply(rt: HostRuntime) {
    for case in SET_NAMES {
        assert_case(&rt, rt.alloc(), case);
    }
}

/// Values of headers and of cookies.
const VALUES: &[BuilderCase] = &[
    BuilderCase {
        setters: &[Set("A-b", "a\nb")],
        replies: &[
            (End::Finish, REFUSED_VALUE),
            (End::Json, REFUSED_VALUE),
            (End::Streaming, REFUSED_VALUE),
        ],
    },
    BuilderCase {
        setters: &[ContentType("a\nb"), ContentType("text/x")],
        replies: &[(End::Body, REFUSED_VALUE), (End::Streaming, REFUSED_VALUE)],
    },
    BuilderCase {
        setters: &[ForceClose, TryAppend("content-length", "a\nb")],
        replies: &[(End::Json, REFUSED_VALUE), (End::Streaming, REFUSED_VALUE)],
    },
    BuilderCase {
        setters: &[
            Cookie("a=\n"),
            Upgrade("websocket"),
            TryInsert("content-type", " 7 "),
            Status(500),
        ],
        replies: &[(End::Finish, REFUSED_VALUE), (End::Body, REFUSED_VALUE)],
    },
    BuilderCase {
        setters: &[
            TryInsert("content-type", "a\nb"),
            TryAppend("content-length", ""),
            ContentType("a\nb"),
        ],
        replies: &[
            (End::Finish, REFUSED_VALUE),
            (End::Streaming, REFUSED_VALUE),
        ],
    },
    BuilderCase {
        setters: &[KeepAlive, Add("content-length", "a\nb")],
        replies: &[(End::Body, REFUSED_VALUE)],
    },
    BuilderCase {
        setters: &[Cookie("a=\n")],
        replies: &[
            (End::Finish, REFUSED_VALUE),
            (End::Json, REFUSED_VALUE),
            (End::Streaming, REFUSED_VALUE),
        ],
    },
    BuilderCase {
        setters: &[ContentType("a\nb"), Add("a", " 7 "), Cookie("a=\n")],
        replies: &[(End::Body, REFUSED_VALUE)],
    },
    BuilderCase {
        setters: &[
            TryAppend("a", " 7 "),
            KeepAlive,
            TryInsert("a", "1"),
            Cookie("a=\n"),
        ],
        replies: &[
            (End::Finish, REFUSED_VALUE),
            (End::Json, REFUSED_VALUE),
            (End::Streaming, REFUSED_VALUE),
        ],
    },
    BuilderCase {
        setters: &[Upgrade("a\nb"), Set("content-type", "a\nb"), Cookie("a=b")],
        replies: &[(End::Streaming, REFUSED_VALUE)],
    },
    BuilderCase {
        setters: &[ContentType("a\nb"), Cookie("a=b; Secure"), Cookie("a=\n")],
        replies: &[(End::Finish, REFUSED_VALUE), (End::Body, REFUSED_VALUE)],
    },
    BuilderCase {
        setters: &[
            KeepAlive,
            TryInsert("a", "3"),
            Cookie("a=\n"),
            Add("content-type", "a\nb"),
            TryInsert("", "a\nb"),
        ],
        replies: &[(End::Body, REFUSED_VALUE), (End::Streaming, REFUSED_VALUE)],
    },
    BuilderCase {
        setters: &[TryInsert("a", " 7 "), Add("A-b", "\0"), ForceClose],
        replies: &[
            (End::Body, REFUSED_VALUE),
            (End::Json, REFUSED_VALUE),
            (End::Streaming, REFUSED_VALUE),
        ],
    },
    BuilderCase {
        setters: &[
            Cookie("a=\n"),
            Reason("Fine"),
            TryInsert("A-b", "1"),
            Status(201),
            Add("content-type", "3"),
        ],
        replies: &[(End::Streaming, REFUSED_VALUE)],
    },
    BuilderCase {
        setters: &[KeepAlive, TryInsert("content-length", "\0")],
        replies: &[
            (End::Body, REFUSED_VALUE),
            (End::Json, REFUSED_VALUE),
            (End::Streaming, REFUSED_VALUE),
        ],
    },
    BuilderCase {
        setters: &[
            TryInsert("content-type", "3"),
            ContentType("a\nb"),
            NoChunking(5),
            Cookie("a=b; Secure"),
        ],
        replies: &[(End::Body, REFUSED_VALUE), (End::Json, REFUSED_VALUE)],
    },
    BuilderCase {
        setters: &[
            Upgrade("websocket"),
            Set("content-length", "x y"),
            TryInsert("content-length", "\0"),
            Upgrade(""),
        ],
        replies: &[(End::Finish, REFUSED_VALUE), (End::Body, REFUSED_VALUE)],
    },
    BuilderCase {
        setters: &[
            NoChunking(18446744073709551615),
            ContentType("text/x"),
            ContentType("a\nb"),
        ],
        replies: &[(End::Finish, REFUSED_VALUE), (End::Body, REFUSED_VALUE)],
    },
    BuilderCase {
        setters: &[
            TryAppend("content-type", "x y"),
            ContentType("a\nb"),
            ForceClose,
            Add("", "a\nb"),
        ],
        replies: &[
            (End::Finish, REFUSED_VALUE),
            (End::Body, REFUSED_VALUE),
            (End::Json, REFUSED_VALUE),
            (End::Streaming, REFUSED_VALUE),
        ],
    },
];

#[test]
fn a_refused_value_is_the_reply(rt: HostRuntime) {
    for case in VALUES {
        assert_case(&rt, rt.alloc(), case);
    }
}
