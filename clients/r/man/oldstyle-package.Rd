\name{oldstyle-package}
\alias{oldstyle-package}
\alias{oldstyle}
\docType{package}
\title{Which Day a Written Date Means in a Territory}
\description{
  The functions of this package ask the program \command{oldstyle}, a calendar
  change register. The program reads a journal, which lists the calendars and the
  beginnings of the year that were in force in each territory. No date is computed
  in R.
}
\section{The program}{
  It is the one of the argument \code{program}, else that of the environment
  variable \env{OLDSTYLE}, else \command{oldstyle} on the \env{PATH}. If there is
  no such program, each function stops with a message that says what to do.
}
\seealso{
  \code{\link{oldstyle_read}} for dates, \code{\link{oldstyle_lands}} for territories.
}
\author{Barbetdivan maintainers}
\keyword{package}
