//! An assignment with types: the offsets of each circuit of a request. Assumes nothing of the numbers it is given.
use crate::bytes::{bodies, put_record, END, OFFSETS};
use crate::sizes::CYCLE_MOST;
use crate::{check_assignment, Invalid, Refusal, Request, Unfit};

/// The offsets of each circuit of a request, with the file that says so. Two circuits may clash all the same: that is for
/// [`check_assignment`] to tell.
///
/// It lends itself as the bytes of that file, so it goes wherever an assignment goes as bytes.
#[derive(Clone, Debug, PartialEq, Eq, Hash)]
pub struct Assignment {
    offsets: Vec<Vec<u8>>,
    bytes: Vec<u8>,
}

impl Assignment {
    /// These offsets for the circuits of the request, in order.
    ///
    /// ```
    /// use vaskunoor::{Assignment, Circuit, Network, Request};
    /// let request = Request::new(Network::new(2, [(0, 1)])?, [Circuit::new(4, 2, [0])?])?;
    /// assert!(Assignment::new(&request, [[0, 2]]).is_ok());
    /// // not rising; not below the cycle; no byte at all
    /// assert!(Assignment::new(&request, [[2, 0]]).is_err());
    /// assert!(Assignment::new(&request, [[0, 4]]).is_err());
    /// assert_eq!(Assignment::new(&request, [[0, 258]]).unwrap_err().to_string(), "offset 258 is not one of 0 to 31");
    /// # Ok::<(), Box<dyn std::error::Error>>(())
    /// ```
    pub fn new<Offsets: IntoIterator<Item = usize>>(
        request: &Request,
        offsets: impl IntoIterator<Item = Offsets>,
    ) -> Result<Assignment, Invalid> {
        let offset = |offset| Unfit::byte("offset", offset, 0, CYCLE_MOST - 1);
        let of_circuit = |offsets: Offsets| -> Result<Vec<u8>, Unfit> {
            let offsets = offsets.into_iter().map(offset).collect::<Result<Vec<u8>, Unfit>>()?;
            Unfit::check("count of offsets", offsets.len(), 1, CYCLE_MOST)?;
            Ok(offsets)
        };
        let offsets = offsets.into_iter().map(of_circuit).collect::<Result<Vec<Vec<u8>>, Unfit>>()?;
        Ok(Assignment::read(request, &file(&offsets))?)
    }

    /// Reads a file as an assignment of the request.
    ///
    /// ```
    /// use vaskunoor::{Assignment, Request};
    /// let request = Request::read(&[4, 0, 1, 0, 1, 0, 0, 0, 0, 0, 5, 0])?;
    /// assert_eq!(Assignment::read(&request, &[0, 0, 5, 0])?.offsets().len(), 0);
    /// # Ok::<(), vaskunoor::Refusal>(())
    /// ```
    pub fn read(request: &Request, bytes: &[u8]) -> Result<Assignment, Refusal> {
        match check_assignment(request, bytes) {
            Ok(()) | Err(Refusal::Clash { .. }) => {}
            Err(refusal) => return Err(refusal),
        }
        Ok(Assignment { offsets: bodies(bytes, OFFSETS).map(<[u8]>::to_vec).collect(), bytes: bytes.to_vec() })
    }

    /// The offsets of each circuit, in order.
    pub fn offsets(&self) -> impl ExactSizeIterator<Item = impl ExactSizeIterator<Item = usize> + Clone + '_> + '_ {
        self.offsets.iter().map(|offsets| offsets.iter().map(|&offset| offset.into()))
    }

    /// The file.
    pub fn as_bytes(&self) -> &[u8] {
        &self.bytes
    }
}

impl AsRef<[u8]> for Assignment {
    fn as_ref(&self) -> &[u8] {
        &self.bytes
    }
}

fn file(offsets: &[Vec<u8>]) -> Vec<u8> {
    let mut bytes = Vec::new();
    offsets.iter().for_each(|of_circuit| put_record(&mut bytes, OFFSETS, of_circuit));
    put_record(&mut bytes, END, &[]);
    bytes
}
