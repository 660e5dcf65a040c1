//! Values with a view, and owners of what the view borrows: the calls that all of them have.

/// The calls of each owner of what a view borrows. The texts: its name; an example, and how many nodes, numbers, .. the
/// example has; the words of its file.
macro_rules! owners {
    ($kind:ident with $view:ident; $it:literal, $made:literal, $len:literal, $file:literal) => {
        impl<O: AsRef<[u64]>> $kind<O> {
            #[doc = concat!("The ", $it, " in a file, whose words the owner has. What the file holds is not tested:")]
            /// `check` does that.
            ///
            /// # Errors
            /// `OtherKind` where the file holds another structure; `NotWhole` where these are no words of a file, or fewer
            /// than it has; `NoMemory` where memory is refused.
            ///
            /// ```
            #[doc = concat!("use bitm_proved::", stringify!($kind), ";")]
            #[doc = concat!("let made = ", $made, ";")]
            #[doc = concat!("let file = ", $file, ";")]
            #[doc = concat!("assert_eq!(", stringify!($kind), "::from_words(file)?.view().len(), ", $len, ");")]
            /// # Ok::<(), Box<dyn std::error::Error>>(())
            /// ```
            pub fn from_words(owner: O) -> Result<Self, StoredError> {
                let held = Held::new(owner)?;
                // SAFETY: the view is handed out only for as long as the value is borrowed itself.
                let view = $view::from_words(unsafe { held.borrowed() })?;
                Ok($kind { view, held })
            }
        }

        impl<O: AsRef<[u8]>> $kind<O> {
            #[doc = concat!("The ", $it, " in a file, whose bytes the owner has; they begin at a multiple of 8.")]
            ///
            /// # Errors
            /// As of `from_words`; `Misaligned` where they begin elsewhere.
            ///
            /// ```
            #[doc = concat!("use bitm_proved::{bytes_of, ", stringify!($kind), "};")]
            #[doc = concat!("let made = ", $made, ";")]
            #[doc = concat!("let file = ", $file, ";")]
            #[doc = concat!("let made = ", stringify!($kind), "::from_bytes(bytes_of(file))?;")]
            #[doc = concat!("assert_eq!(made.view().len(), ", $len, ");")]
            /// # Ok::<(), Box<dyn std::error::Error>>(())
            /// ```
            pub fn from_bytes(owner: O) -> Result<Self, StoredError> {
                let held = Held::new(owner)?;
                // SAFETY: as for `from_words`.
                let view = $view::from_bytes(unsafe { held.borrowed() })?;
                Ok($kind { view, held })
            }
        }

        #[cfg(feature = "std")]
        impl $kind<Vec<u64>> {
            #[doc = concat!("The ", $it, " in the file at a path, which is copied into memory. What the file holds is")]
            /// not tested: `check` does that.
            ///
            /// # Errors
            /// `OpenError::System` where the system refuses the file, and `OpenError::Stored` as for `from_words`.
            ///
            /// ```
            #[doc = concat!("use bitm_proved::{bytes_of, ", stringify!($kind), "};")]
            #[doc = concat!("let made = ", $made, ";")]
            #[doc = concat!("let name = format!(\"bitm-read-", stringify!($kind), "-{}\", std::process::id());")]
            /// let path = std::env::temp_dir().join(name);
            #[doc = concat!("std::fs::write(&path, bytes_of(", $file, "))?;")]
            #[doc = concat!("let read = ", stringify!($kind), "::read(&path)?;")]
            #[doc = concat!("assert!(read.view().check() && read.view().len() == ", $len, ");")]
            /// # std::fs::remove_file(&path)?;
            /// # Ok::<(), Box<dyn std::error::Error>>(())
            /// ```
            pub fn read(path: impl AsRef<std::path::Path>) -> Result<Self, crate::errors::OpenError> {
                Ok($kind::from_words(crate::sys::read::words_from_file(path)?)?)
            }
        }

        impl<O> $kind<O> {
            /// Its view, which has the queries that return errors.
            ///
            /// ```
            #[doc = concat!("let made = ", $made, ";")]
            #[doc = concat!("assert_eq!(made.view().len(), ", $len, ");")]
            /// # Ok::<(), bitm_proved::BuildError>(())
            /// ```
            #[inline(always)]
            pub fn view(&self) -> &$view<'_> {
                &self.view
            }

            /// The owner.
            ///
            /// ```
            #[doc = concat!("use bitm_proved::", stringify!($kind), ";")]
            #[doc = concat!("let made = ", $made, ";")]
            #[doc = concat!("let file = ", $file, ";")]
            #[doc = concat!("assert_eq!(", stringify!($kind), "::from_words(file)?.owner(), &file);")]
            /// # Ok::<(), Box<dyn std::error::Error>>(())
            /// ```
            pub fn owner(&self) -> &O {
                self.held.owner()
            }

            #[doc = concat!("The owner, without the ", $it, ".")]
            ///
            /// ```
            #[doc = concat!("use bitm_proved::", stringify!($kind), ";")]
            #[doc = concat!("let made = ", $made, ";")]
            #[doc = concat!("let file = ", $file, ";")]
            #[doc = concat!("assert_eq!(", stringify!($kind), "::from_words(file)?.into_owner(), file);")]
            /// # Ok::<(), Box<dyn std::error::Error>>(())
            /// ```
            pub fn into_owner(self) -> O {
                self.held.into_owner()
            }
        }

        impl<O> fmt::Debug for $kind<O> {
            fn fmt(&self, f: &mut fmt::Formatter<'_>) -> fmt::Result {
                self.view().show(f, stringify!($kind))
            }
        }
    };
}
pub(crate) use owners;

/// As `owners`, of a block that is built, and which can be copied. By default a copy copies the block, and the words of
/// the file are the block's.
macro_rules! owners_of_blocks {
    ($kind:ident with $view:ident; $it:literal, $made:literal, $len:literal) => {
        crate::sys::owner::owners_of_blocks!(
            $kind with $view; $it, $made, $len, "made.view().block()", |it| it.view().block());
    };
    ($kind:ident with $view:ident; $it:literal, $made:literal, $len:literal, $file:literal,
     |$own:ident| $words:expr) => {
        crate::sys::owner::owners!($kind with $view; $it, $made, $len, $file);

        impl $kind {
            /// Of a block that was built; `otherwise` where it is none.
            fn of_block(block: Vec<u64>, otherwise: BuildError) -> Result<Self, BuildError> {
                $kind::from_words(block).map_err(|why| match why {
                    StoredError::NoMemory(why) => BuildError::NoMemory(why),
                    _ => otherwise,
                })
            }

            /// A copy.
            ///
            /// # Errors
            /// `NoMemory` where memory is refused.
            ///
            /// ```
            #[doc = concat!("let made = ", $made, ";")]
            #[doc = concat!("assert_eq!(made.try_clone()?.view().len(), ", $len, ");")]
            /// # Ok::<(), Box<dyn std::error::Error>>(())
            /// ```
            pub fn try_clone(&self) -> Result<Self, StoredError> {
                let $own = self;
                $kind::from_words(copied($words)?)
            }
        }

        impl Clone for $kind {
            fn clone(&self) -> Self {
                made(self.try_clone())
            }
        }
    };
}
pub(crate) use owners_of_blocks;
