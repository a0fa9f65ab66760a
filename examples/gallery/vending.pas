{ A machine that sells tickets for 120: the input has coins, 1 for 10, 2 for 20 and 5 for 50, and r for return. }
program vending(input, output);
const
  price = 120;
type
  event = (ten, twenty, fifty, return, unknown);
var
  paid, sold: integer;
  c: char;

function eventof(c: char): event;
begin
  eventof := unknown;
  case c of
    '1': eventof := ten;
    '2': eventof := twenty;
    '5': eventof := fifty;
    'r': eventof := return
  end
end;

procedure insert(coin: integer);
begin
  paid := paid + coin;
  if paid >= price then
  begin
    writeln('ticket, change ', paid - price: 1);
    paid := 0;
    sold := sold + 1
  end
end;

begin
  paid := 0;
  sold := 0;
  while not eof do
  begin
    while not eoln do
    begin
      read(c);
      case eventof(c) of
        ten: insert(10);
        twenty: insert(20);
        fifty: insert(50);
        return:
          begin
            writeln('returned ', paid: 1);
            paid := 0
          end;
        unknown:
          writeln('what is ', c, '?')
      end
    end;
    readln
  end;
  writeln(sold: 1, ' tickets sold')
end.
