//! Strings, data and the arguments of commands.

use crate::body::Body;
use crate::integer;
use crate::record::Command;
use crate::record::DROP;
use crate::record::MESSAGE;

pub fn inputs(version: u8) -> Vec<Vec<u8>> {
    let new = || Body::new(version);
    let bodies = [strings(new), data(new), arguments(new)];
    bodies.into_iter().flatten().map(Body::done).collect()
}

fn strings(new: impl Fn() -> Body) -> Vec<Body> {
    vec![
        new().drop(0, b"").finish(),
        new().drop(0, b"a").finish(),
        new().drop(0, &[0x80, 0xff, 0x01]).finish(),
        new().drop(0, &[0x40; 200]).finish(),
        new().ints(&[DROP, 0]),
        new().ints(&[DROP, 0]).raw(b"abc"),
        new().join(0).ints(&[DROP, 0]).raw(&[0xff; 70]),
        new().drop(0, b"a").drop(1, b"").drop(2, b"b").finish(),
    ]
}

fn data(new: impl Fn() -> Body) -> Vec<Body> {
    let mut list = vec![
        new().message(0, b"").finish(),
        new().message(0, b"").message(1, &[0; 3]).finish(),
        new().message(0, &[0x40; 63]).finish(),
        new().message(0, &[0x40; 64]).finish(),
        new().message(0, &[0x40; 9000]).finish(),
        new().ints(&[MESSAGE, 0]),
        new().ints(&[MESSAGE, 0, 3]).raw(&[0x40, 0x40]),
        new().ints(&[MESSAGE, 0, 3]).raw(&[0x40, 0x40, 0x40]),
        new().ints(&[MESSAGE, 0, 3]).raw(&[0x40, 0x40, 0x40, 0x40]),
    ];
    for length in [-1, -2, -64, -65, i32::MIN, i32::MAX, i32::MAX - 1, 65536] {
        list.push(new().ints(&[MESSAGE, 0, length]).raw(&[0x40; 8]));
        list.push(new().join(1).ints(&[MESSAGE, 0, length]));
    }
    for form in integer::forms(2)
        .into_iter()
        .chain(integer::forms(-1))
        .chain(integer::forms(0))
    {
        list.push(
            new()
                .ints(&[MESSAGE, 0])
                .raw(&form)
                .raw(&[0x40, 0x41, 0x40]),
        );
    }
    list
}

fn arguments(new: impl Fn() -> Body) -> Vec<Body> {
    let mut list = Vec::new();
    for count in [-1, -2, i32::MIN, 0, 1, 2, 15, 16, 17, 18, 100, i32::MAX] {
        for given in [0, 1, 2, 15, 16, 17, 18] {
            list.push(command(new(), count, given, 0).finish());
            list.push(command(new().join(0), count, given, 2));
        }
    }
    for form in integer::forms(1) {
        list.push(
            new()
                .ints(&[-10, 0, 0])
                .string(b"x")
                .raw(&form)
                .string(b"y")
                .finish(),
        );
    }
    for flags in [0, 1, -1, i32::MIN, i32::MAX] {
        list.push(
            new()
                .command(&Command {
                    client: 1,
                    flags,
                    name: b"",
                    count: 0,
                    arguments: &[],
                })
                .finish(),
        );
    }
    list.push(command(new(), 17, 16, 1).raw(&[0x61]));
    list.push(new().ints(&[-10, 0]));
    list.push(new().ints(&[-10, 0, 0]).raw(b"name"));
    list.push(new().ints(&[-10, 0, 0]).string(b"name"));
    list
}

fn command(body: Body, count: i32, given: usize, length: usize) -> Body {
    let arguments = vec![vec![0x62; length]; given];
    body.command(&Command {
        client: 4,
        flags: 9,
        name: b"vote",
        count,
        arguments: &arguments,
    })
}
