// The text of each error: what is wrong, and what to do about it. {} stands for the value in question.

const CAUSES = {
  // graphs (.gr) and their coordinates (.co)
  UnknownLine: 'The line doesn’t begin with a letter of this format. Is the file compressed, or of another format?',
  NoProblemYet: 'This line comes before the problem line (p). Is that line missing?',
  SecondProblem: 'This is a second problem line (p). Were two files joined?',
  BadProblem: 'The problem line must be “p sp n m”, or “p aux sp co n” in a .co file.',
  TooLarge: 'The file has more vertices or arcs than the page accepts.',
  TooManyArcs: 'There are more arcs than the problem line says.',
  BadArc: 'An arc must be “a U V W”, with a whole number as its weight.',
  EndOutOfRange: 'A vertex must be a number from 1 to n. Are the vertices numbered from 0?',
  WeightOutOfRange: 'A weight must fit into 64 bits with a sign.',
  MissingProblem: 'The file has no problem line (p). Is it empty?',
  MissingArcs: 'There are fewer arcs than the problem line says. Was the file cut off?',
  BadPlace: 'A coordinate line must be “v V X Y”, with a vertex and two numbers.',
  SecondPlace: 'This vertex already has coordinates.',
  MissingPlaces: 'There are fewer coordinates than the problem line says. Was the file cut off?',
  PlacesDiffer: 'The file has coordinates for another number of vertices than the graph has.',
  LongText: 'Coordinates, and graphs without the module, may have half a gigabyte at most.',
  // files
  NoText: 'This is {}, not text. Open a text file: CSV, GeoJSON, GPX, KML or .gr.',
  WebPage: 'This is a web page. Save its table as CSV, and open that.',
  NoUtf8: 'Some letters are in an unknown encoding. Save the file as “CSV UTF-8”.',
  NoUtf16: 'The file begins as UTF-16, but some of its letters aren’t. Was the file cut off?',
  Unreadable: 'The file can’t be read. Was it moved, or changed since it was opened?',
  BadGzip: 'The file can’t be decompressed. Was it cut off? If it has several compressed parts, decompress it first.',
  SeveralFiles: 'These are {} files. Open one table or graph at a time, and optionally its coordinates (.co).',
  TooLong: 'A text of this kind may have a gigabyte at most. The program accepts longer ones.',
  // tables
  LongRow: 'A row has a million letters at most. Is this a table?',
  TooManyLines: 'A table has 20 million lines at most.',
  OpenQuote: 'A quotation mark opens here and is never closed.',
  StrayQuote: 'There is a quotation mark within {}. Put the field in quotes, and write each mark inside it twice.',
  OtherColumns: 'This row and the first row have different numbers of fields: {}. Correct the row, or leave it out.',
  TooManyColumns: 'A table has 1,000 columns at most, and this one has {}.',
  OneColumn: '{} is one column. A table needs at least two, separated by commas, semicolons, tabs, bars or spaces.',
  NoNumber: '{} isn’t a finite number, as a coordinate or a weight must be. Correct it, or leave the row out.',
  PointAndComma: '{} has another decimal mark than the numbers before it. Save all of them with the same mark.',
  NoPoint: 'The file has no points. A table needs one row “x,y” for each point.',
  NoLink: 'The file has no edges. A table needs one row “source,target,weight” for each edge.',
  NoName: 'An endpoint of this edge has no name. Name it, or leave the row out.',
  LongWeight: '{} is a whole number beyond 2^53, which the page would round. A .gr file keeps it.',
  LongPlace: '{} is a whole number beyond 2^53, which the page would round. Subtract one number from the whole column.',
  NoLatitude: '{} isn’t a latitude, which is from -90 to 90. Are the columns swapped, or in metres?',
  NoLongitude: '{} isn’t a longitude, which is from -360 to 360. Are the columns in metres?',
  TooManyPoints: 'The page accepts a million points at most.',
  TooManyLinks: 'The page accepts 16 million edges at most. A .gr file may have more.',
  // GeoJSON, GPX and KML
  BadJson: 'The file isn’t valid JSON: {}. Was it cut off?',
  NoGeoPoint: 'Each feature must be a point with two numbers in degrees. This one isn’t: {}.',
  BadXml: 'The file isn’t valid XML: {}. Was it cut off?',
  OtherXml: 'The file is XML, but neither GPX nor KML: it begins with {}. Save the points as CSV.',
  // points
  TooFarApart: 'The distance between these points is too large for a double.',
  TooNear: 'Two points are closer together than 10^-150 of the whole. Leave one of them out.',
  // addresses, and the page itself
  BadAddress: 'The part of the address after #d= isn’t data of this page. Was the link cut off?',
  LongAddress: 'An address holds at most 5,000 points with short names. Save the page with its points instead.',
  LongPage: 'A page holds a file of at most 200 MB. Send the file itself, and the page without it.',
  BadInside: 'The data inside this page can’t be read. Was the file cut off?',
  Broken: 'The page has a bug: {}. Please report it.',
  'no memory': 'The browser is out of memory.',
};

export class PageError extends Error {
  constructor({ kind, line = 0, what = '' }) {
    const place = line ? `line ${line}: ` : '', cause = CAUSES[kind] ?? CAUSES.Broken;
    super(`${place}${cause.replace('{}', () => what || 'this')}`);
    this.kind = kind;
    this.line = line;
    this.what = what;
  }
}
