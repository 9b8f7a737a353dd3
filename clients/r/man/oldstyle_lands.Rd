\name{oldstyle_lands}
\alias{oldstyle_lands}
\title{The Territories of a Register}
\description{
  Returns the codes and the names of the territories that a journal has.
}
\usage{
oldstyle_lands(journal, program = NULL)
}
\arguments{
  \item{journal}{the path of the journal of a register. It is only read.}
  \item{program}{the path of the program, or \code{NULL}: see
    \code{\link{oldstyle-package}}.}
}
\value{
  A data frame with the columns \code{code} and \code{name}, a row for each
  territory, in the order of the register.
}
\seealso{\code{\link{oldstyle_read}}}
\examples{
journal <- system.file("extdata", "samples.journal", package = "oldstyle")
if (nzchar(Sys.which(Sys.getenv("OLDSTYLE", "oldstyle")))) {
  oldstyle_lands(journal)
}
}
