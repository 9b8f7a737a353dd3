\name{oldstyle_read}
\alias{oldstyle_read}
\title{What Written Dates Mean}
\description{
  Returns the days that each date means in the territory where it was written.
}
\usage{
oldstyle_read(journal, code, date, weekday = NA, program = NULL)
}
\arguments{
  \item{journal}{the path of the journal of a register. It is only read.}
  \item{code}{codes of territories, such as \code{"GB"}, as many as dates, or one
    for all. \code{\link{oldstyle_lands}} lists them.}
  \item{date}{dates as in the documents, such as \code{"11 Feb. 1731/32"},
    \code{"March 1731"} or \code{"before 1640"}.}
  \item{weekday}{English names of weekdays that the documents give, as many as
    dates, or one for all. \code{NA} and \code{""} if a document gives none.}
  \item{program}{the path of the program, or \code{NULL}: see
    \code{\link{oldstyle-package}}.}
}
\value{
  A data frame with a row for each date, in order. Its first columns are
  \code{code}, \code{date} and \code{weekday} as they were asked; then come
  \item{kind}{what the date is, such as \code{"day"}, \code{"month"} or
    \code{"before"}; \code{"none"} if it is not a date.}
  \item{first, last}{the Gregorian dates of the first and the last day that the
    date may mean, as texts; \code{NA} at the open end of \code{"before 1640"}.
    \code{as.Date} makes them days of R.}
  \item{runs}{the number of runs of days. If it is 2, not all days between
    \code{first} and \code{last} are meant.}
  \item{day, jdn, dual, found_weekday}{the day number, the Julian day number, the
    date as the place wrote it, and the weekday of a date that means one day;
    \code{NA} for any other date.}
  \item{weekday_fits}{for a date of one day, if a weekday is asked or named in it:
    whether one of its days is each of these weekdays; \code{NA} otherwise.}
  \item{approximate, supplied, uncertain, other_calendar}{whether the date says
    so of itself.}
  \item{reason}{why the date means no day.}
  \item{fault}{the name of the fault if the program refused the row, such as
    \code{"UnknownLand"} for a code that the register lacks.}
  \item{edition}{the edition of the register that answered. Cite it.}
  \item{answer}{a list with the whole answer of the program, which contains the
    runs.}
}
\seealso{\code{\link{oldstyle_lands}}}
\examples{
journal <- system.file("extdata", "samples.journal", package = "oldstyle")
if (nzchar(Sys.which(Sys.getenv("OLDSTYLE", "oldstyle")))) {
  found <- oldstyle_read(journal, "GB", c("11 Feb. 1731/32", "March 1731", "n.d."))
  found[c("date", "first", "last", "runs", "dual", "reason")]
}
}
