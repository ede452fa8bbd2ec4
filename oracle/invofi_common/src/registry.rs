//! The registry contract: invoices and the blacklist. Its refusals are another contract's.

use soroban_sdk::{symbol_short, Address, Env, Map, Shelf, Space, Stored, Symbol};

use crate::{ContractError, MOST_ROWS};

#[derive(Clone, Copy, Debug, PartialEq, Eq)]
pub enum InvoiceStatus {
    Pending = 0,
    Financed = 1,
    Cancelled = 2,
}

impl InvoiceStatus {
    pub fn of_code(code: u64) -> Option<InvoiceStatus> {
        use InvoiceStatus::*;
        [Pending, Financed, Cancelled].into_iter().find(|status| *status as u64 == code)
    }
}

#[derive(Clone, Copy, PartialEq)]
pub struct Invoice {
    pub id: Symbol,
    pub originator: Address,
    pub amount: i128,
    pub status: InvoiceStatus,
}

impl Stored for Invoice {
    const ROWS: u32 = MOST_ROWS;
}

/// The registry's rows, as the layer around the original reads and writes them.
pub struct Registry<'a>(pub &'a Env);

impl Registry<'_> {
    fn shelf(&self) -> Shelf<'_> {
        self.0.storage().shelf(Space::Registry)
    }

    pub fn invoices(&self) -> Map<Symbol, Invoice> {
        let stored = self.shelf().get(&symbol_short!("invoices"));
        stored.unwrap_or_else(|| Map::new(self.0))
    }

    pub fn put_invoice(&self, invoice: Invoice) {
        let mut invoices = self.invoices();
        invoices.set(invoice.id, invoice);
        self.shelf().set(&symbol_short!("invoices"), &invoices);
    }

    pub fn is_blacklisted(&self, address: &Address) -> bool {
        let listed = self.shelf().get(&(symbol_short!("black"), *address));
        listed.unwrap_or(false)
    }

    pub fn set_blacklisted(&self, address: &Address, listed: bool) {
        self.shelf().set(&(symbol_short!("black"), *address), &listed);
    }
}

pub struct RegistryClient<'a>(&'a Env);

impl<'a> RegistryClient<'a> {
    pub fn new(env: &'a Env, _registry: &Address) -> RegistryClient<'a> {
        RegistryClient(env)
    }

    #[track_caller]
    pub fn get_invoice(&self, id: &Symbol) -> Invoice {
        match Registry(self.0).invoices().get(*id) {
            Some(invoice) => invoice,
            None => self.0.refused_by_other(ContractError::NotFound),
        }
    }

    pub fn is_blacklisted(&self, address: &Address) -> bool {
        Registry(self.0).is_blacklisted(address)
    }

    #[track_caller]
    pub fn financing_marks_invoice_financed(&self, id: &Symbol) {
        let mut invoice = self.get_invoice(id);
        invoice.status = InvoiceStatus::Financed;
        Registry(self.0).put_invoice(invoice);
    }
}
