// The example that the page begins with: towns of Great Britain and Ireland.

export const EXAMPLE = 'british-isles.csv';

// Each town's degrees north and east.
const TOWNS = {
  London: [51.507, -0.128], Brighton: [50.822, -0.137], Dover: [51.126, 1.313], Southend: [51.538, 0.711],
  Cambridge: [52.205, 0.122], Ipswich: [52.057, 1.148], Norwich: [52.629, 1.297], Peterborough: [52.573, -0.240],
  Oxford: [51.752, -1.258], Southampton: [50.910, -1.404], Salisbury: [51.069, -1.795], Bristol: [51.455, -2.588],
  Exeter: [50.726, -3.527], Plymouth: [50.376, -4.143], Truro: [50.263, -5.051], Cardiff: [51.482, -3.179],
  Swansea: [51.621, -3.944], Carmarthen: [51.857, -4.312], Aberystwyth: [52.416, -4.083], Bangor: [53.228, -4.129],
  Shrewsbury: [52.708, -2.754], Hereford: [52.056, -2.716], Birmingham: [52.486, -1.890], Leicester: [52.637, -1.139],
  Nottingham: [52.955, -1.149], Sheffield: [53.381, -1.470], Manchester: [53.481, -2.243],
  Liverpool: [53.408, -2.992], Leeds: [53.801, -1.549], York: [53.960, -1.087], Hull: [53.746, -0.337],
  Lancaster: [54.047, -2.801], Newcastle: [54.978, -1.618], Penrith: [54.664, -2.752], Carlisle: [54.895, -2.934],
  Berwick: [55.771, -2.007], Alnwick: [55.413, -1.706], Edinburgh: [55.953, -3.188], Glasgow: [55.864, -4.252],
  Dundee: [56.462, -2.971], Perth: [56.396, -3.437], Aberdeen: [57.150, -2.094], Pitlochry: [56.702, -3.730],
  Aviemore: [57.195, -3.826], Inverness: [57.478, -4.225], Dornoch: [57.880, -4.029], Helmsdale: [58.117, -3.653],
  Wick: [58.439, -3.093], Thurso: [58.594, -3.522], Oban: [56.415, -5.472], Dumfries: [55.070, -3.605],
  Dublin: [53.350, -6.260], Dundalk: [54.004, -6.405], Belfast: [54.597, -5.930], Derry: [54.997, -7.309],
  Omagh: [54.598, -7.306], Sligo: [54.277, -8.476], Athlone: [53.424, -7.941], Galway: [53.271, -9.057],
  Limerick: [52.664, -8.627], Cork: [51.898, -8.476], Tralee: [52.270, -9.702], Waterford: [52.259, -7.110],
  Kilkenny: [52.654, -7.252], Wexford: [52.337, -6.463], Thurles: [52.681, -7.802], Longford: [53.727, -7.793],
};

export function exampleFile() {
  const rows = Object.entries(TOWNS).map(([name, [north, east]]) => `${name},${east},${north}`);
  return new File([['town,longitude,latitude', ...rows, ''].join('\n')], EXAMPLE, { type: 'text/csv' });
}
