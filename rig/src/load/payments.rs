//! A client that makes payments in one session, and looks after each whether the row is there and which replica answers.

use crate::lab::network::{balanced, CLIENT};
use crate::lab::{fail, Failure, Lab};
use crate::load::session::Session;
use std::time::{Duration, Instant};

/// Payments of one client have numbers from its own range of this size.
const RANGE: u32 = 1_000_000;

/// A client with an open session.
pub struct Client {
    /// Its session.
    pub session: Session,
    /// Statements that were answered as they must be.
    pub statements: u32,
    /// Payments that are committed.
    pub committed: u32,
    /// The longest time that an answer took, since this was last set to zero.
    pub longest: Duration,
    first: u32,
    open: bool,
}

impl Client {
    /// Opens a session for the client of that number.
    pub fn open(lab: &Lab, number: u32) -> Result<Client, Failure> {
        let session = Session::open(lab)?;
        let (first, longest) = (number * RANGE, Duration::ZERO);
        Ok(Client { session, statements: 1, committed: 0, longest, first, open: false })
    }

    /// Begins a transaction and writes a payment in it.
    pub fn begin(&mut self) -> Result<(), Failure> {
        let payment = self.payment();
        self.expect("begin", &[])?;
        self.expect(&format!("insert into payments values ({payment}, 'paid {payment}')"), &[])?;
        self.open = true;
        Ok(())
    }

    /// Looks at the payment of the open transaction: it must be there, and the session on its replica.
    pub fn look(&mut self) -> Result<(), Failure> {
        let payment = self.payment();
        let server = self.session.server;
        let row = format!("paid {payment}|replica {server}|{}", balanced(server));
        let sql = format!(
            "select note, name, inet_server_addr() from payments, replica where id = {payment}"
        );
        self.expect(&sql, &[&row])
    }

    /// Commits the open transaction, and looks at the payment after it.
    pub fn commit(&mut self) -> Result<(), Failure> {
        self.expect("commit", &[])?;
        self.look()?;
        self.open = false;
        self.committed += 1;
        Ok(())
    }

    /// Does some work: goes on in the open transaction, or makes a whole payment, and counts all its payments.
    pub fn work(&mut self) -> Result<(), Failure> {
        if self.open {
            return self.look();
        }
        self.begin()?;
        self.look()?;
        self.commit()?;
        let (first, past) = (self.first, self.first + RANGE);
        let sql = format!("select count(*) from payments where id >= {first} and id < {past}");
        self.expect(&sql, &[&self.committed.to_string()])
    }

    /// Says a statement that can't be answered any more, since the session was cut. Gives how long it took to learn that, and what the
    /// client was told.
    pub fn must_fail(&mut self) -> Result<(Duration, String), Failure> {
        let begin = Instant::now();
        match self.session.ask("select 1") {
            Ok(_) => {
                fail(format!("a session on replica {} was cut, and goes on", self.session.server))
            }
            Err(failure) => Ok((begin.elapsed(), failure.0)),
        }
    }

    /// Its address and port.
    pub fn address(&self) -> String {
        format!("{CLIENT}:{}", self.session.port)
    }

    /// Whether a transaction is open.
    pub fn is_in_transaction(&self) -> bool {
        self.open
    }

    fn payment(&self) -> u32 {
        self.first + self.committed
    }

    fn expect(&mut self, sql: &str, want: &[&str]) -> Result<(), Failure> {
        let server = self.session.server;
        let whose =
            |words: String| Failure(format!("a session that began on replica {server}: {words}"));
        let begin = Instant::now();
        let rows = self.session.ask(sql).map_err(|failure| whose(failure.0))?;
        self.longest = self.longest.max(begin.elapsed());
        if rows != want {
            return fail(whose(format!("'{sql}' gave {rows:?} and not {want:?}")).0);
        }
        self.statements += 1;
        Ok(())
    }
}
