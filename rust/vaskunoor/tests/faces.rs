//! What a tool in Rust relies on: numbers that do not fit are errors and never other numbers, calls from many threads at once, and the stack
//! that each call needs. Assumes the archive as the library does.
use std::thread;
use vaskunoor::sizes::*;
use vaskunoor::*;

fn net_p() -> Request {
    let network = Network::new(3, [(0, 1), (1, 2), (2, 1)]).unwrap();
    Request::new(network, [Circuit::new(4, 1, [0, 1]).unwrap(), Circuit::new(6, 2, [1]).unwrap()]).unwrap()
}

fn unfit<T: std::fmt::Debug>(built: Result<T, Unfit>) -> (&'static str, usize, (usize, usize)) {
    let unfit = built.expect_err("a number that does not fit");
    (unfit.field(), unfit.value(), unfit.allowed())
}

/// Each of these was cut to its low byte once, and another plan was booked.
#[test]
fn no_number_becomes_another() {
    assert_eq!(unfit(Circuit::new(260, 1, [0])), ("cycle", 260, (1, 32)));
    assert_eq!(unfit(Circuit::new(4, 257, [0])), ("demand", 257, (1, 4)));
    assert_eq!(unfit(Circuit::new(4, 1, [65_536])), ("buffer", 65_536, (0, 127)));
    assert_eq!(unfit(Circuit::new(4, 1, vec![0; 257])), ("hops", 257, (1, 16)));
    assert_eq!(unfit(Network::new(65_537, [])), ("routers", 65_537, (1, 64)));
    assert_eq!(unfit(Network::new(3, [(257, 1)])), ("from-router", 257, (0, 2)));
    assert_eq!(unfit(Network::new(3, [(0, 257)])), ("to-router", 257, (0, 2)));
    assert_eq!(unfit(Network::new(64, (0..129).map(|link| (link / 63, link % 63)))), ("buffers", 129, (0, 128)));
    assert_eq!(unfit(Line::new(257, 4, 0, Inport::Local, 0)), ("router", 257, (0, 63)));
    assert_eq!(unfit(Line::new(0, 260, 0, Inport::Local, 0)), ("period", 260, (1, 32)));
    assert_eq!(unfit(Line::new(0, 0, 0, Inport::Local, 0)), ("period", 0, (1, 32)));
    assert_eq!(unfit(Line::new(0, 4, 256, Inport::Local, 0)), ("slot", 256, (0, 3)));
    assert_eq!(unfit(Line::new(0, 4, 0, Inport::Buffer(65_535), 0)), ("in", 65_535, (0, 127)));
    assert_eq!(unfit(Line::new(0, 4, 0, Inport::Local, 65_536)), ("out", 65_536, (0, 127)));
}

#[test]
fn too_many_of_anything_is_an_error() {
    let circuits = vec![Circuit::new(4, 1, [0]).unwrap(); 33];
    let many = Request::new(Network::new(2, [(0, 1)]).unwrap(), circuits).unwrap_err();
    assert_eq!(many.to_string(), "circuits 33 is not one of 0 to 32");
    let lines = vec![Line::new(0, 4, 0, Inport::Local, 0).unwrap(); 4097];
    assert_eq!(Table::new(&net_p(), lines).unwrap_err().to_string(), "lines 4097 is not one of 0 to 4096");
    let offsets = Assignment::new(&net_p(), [vec![0], vec![0, 256]]).unwrap_err();
    assert_eq!(offsets.to_string(), "offset 256 is not one of 0 to 31");
    assert!(Assignment::new(&net_p(), [vec![0], vec![0; 300]]).is_err());
    assert!(Assignment::new(&net_p(), [vec![], vec![0, 2]]).is_err());
    assert!(Assignment::new(&net_p(), [vec![0]]).is_err());
}

#[test]
fn a_refusal_is_an_error_with_its_cause() {
    let path = Request::new(net_p().network().clone(), [Circuit::new(4, 1, [0, 2]).unwrap()]).unwrap_err();
    let refusal = Refusal::Damaged { file: File::Request, fault: Fault::Path, byte: 14 };
    assert_eq!(path, Invalid::Refused(refusal));
    let cause = std::error::Error::source(&path).expect("it has a cause");
    assert_eq!(cause.to_string(), refusal.to_string());
}

fn is_shared_freely<T: Send + Sync + 'static>() {}

#[test]
fn everything_goes_to_other_threads() {
    is_shared_freely::<Request>();
    is_shared_freely::<Assignment>();
    is_shared_freely::<Table>();
    is_shared_freely::<Refusal>();
    is_shared_freely::<Invalid>();
    let request = net_p();
    thread::scope(|scope| {
        for _ in 0..4 {
            scope.spawn(|| {
                for _ in 0..500 {
                    let given = allocate(&request, 10).unwrap();
                    let table = make_tables(&request, &given.assignment).unwrap();
                    assert_eq!(check_tables(&request, &given.assignment, table), Ok(()));
                }
            });
        }
    });
}

/// As many routers and buffers as there can be, and 32 circuits that take all of their 32 offsets, each alone on its buffer.
fn deepest() -> Request {
    let network = Network::new(64, (0..32).map(|pair| (2 * pair, 2 * pair + 1))).unwrap();
    Request::new(network, (0..32).map(|buffer| Circuit::new(32, 32, [buffer]).unwrap())).unwrap()
}

/// What a thread of the standard library takes of its stack before it runs, and these tests beside the call.
const THREAD: usize = 16 * 1024;

fn on_stack<T: Send + 'static>(size: usize, call: impl FnOnce() -> T + Send + 'static) -> T {
    thread::Builder::new().stack_size(size + THREAD).spawn(call).unwrap().join().unwrap()
}

#[test]
fn each_call_runs_on_the_stack_that_is_named() {
    let request = deepest();
    let bytes = request.clone();
    let given = on_stack(ALLOCATE_STACK, move || allocate(bytes, u32::MAX)).unwrap();
    assert_eq!(given.visits, 1024);
    let (bytes, assignment) = (request.clone(), given.assignment.clone());
    let table = on_stack(MAKE_TABLES_STACK, move || make_tables(bytes, assignment)).unwrap();
    let (bytes, assignment) = (request.clone(), given.assignment.clone());
    assert_eq!(on_stack(CHECK_TABLES_STACK, move || check_tables(bytes, assignment, table)), Ok(()));
    let bytes = request.clone();
    assert_eq!(on_stack(CHECK_ASSIGNMENT_STACK, move || check_assignment(bytes, given.assignment)), Ok(()));
    assert_eq!(on_stack(READ_STACK, move || read_request(request)), Ok(()));
}
