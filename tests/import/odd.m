function mpc = odd
%ODD  A grid of eight buses with every odd way to write a MATPOWER file that import must read.
% mpc.bus = [ 99 1 in a comment is no matrix ];
%{
mpc.bus = [ in a block of comments is no matrix
%}

    mpc.version='2'  ;
mpc.baseMVA = 1e2, mpc.note = 'it''s 50% of [ a string';   % and a quote ' in a comment

%% numbers with gaps, separated by tabs, blanks and commas; two rows on a line; a row that goes on
mpc.bus=[1001 3 0 0 0 0 1 1.06 0 345 1 1.1 .9 % the swing bus has a generator
	1002	1	0	0	0	0	1	1	0	345	1	1.1	0.9;

  7, 1, 0, -0.0, 0e0, 0, 1, 1, 0, 345, 1, 1.1, 0.9; 8 , 1 , 1e-3 , 0 , 0 , 0 , 1 , 1 , 0 , 345 , 1 , 1.1 , .9
    20 1 0 0 ...  the load ends here
       0 0 1 1 ...
       0 345 1 1.1 0.9;  ;
	+3.0e1 1 0 0 0 NaN 1 1 0 345 1 1.1 0.9
	40 4 0 0 0 0 1 1 0 345 1 Inf -Inf;
	50 1 0 0 0 0 1 1 0 345 1 1.1 0.9 ];

mpc.dcline = [ 50 20 1 10 8.9 0 0 1.01 1 1 10 -10 10 -10 10 1 0.01 ]; % feeds 50 and 20
mpc.gen = [ % the second is out of service: it could be started, so bus 7 is I
	1001	163	6.5	300	-300	1.06	100	1	250	10	0	0	0	0	0	0	0	0	0	0	0;
	7	0	0	300	-300	1	100	0	250	10	0	0	0	0	0	0	0	0	0	0	0;
];
mpc.branch = [
	1001	1002	0.01	0.085	0.176	250	250	250	0	0	1	-360	360;
	8	1002	0.01	0.085	0.176	250	250	250	0	0	1	-360	360;   % parallel to the next, turned
	1002	8	0.01	0.085	0.176	250	250	250	0	0	1	-360	360;
	1002	8	0.01	0.085	0.176	250	250	250	0	0	0	-360	360;   % out of service beside two in service
	8	20	0.01	0.085	0.176	250	250	250	0	0	1	-360	360;
	20	30	0.01	0.085	0.176	250	250	250	0	0	1	-360	360;
	30	7	0.01	0.085	0.176	250	250	250	0	0	1	-360	360;
	7	1001	0.01	0.085	0.176	250	250	250	0	0	0	-360	360;   % out of service
	40	1001	0.01	0.085	0.176	250	250	250	0	0	1	-360	360;   % bus 40 is isolated by its type
];

mpc.gencost = [2 1500 0 3 0.11 5 150
	2 2000 0 3 0.085 1.2 600];
mpc.gentype = {'ST'; "GT"};
mpc.bus_name = {
	'North';
	'it''s 50% "of" it';   'three', '';
	'five'
	'six [ ... ]';
	'Süd'; 'eight	tabbed'
};
[PQ, PV, REF, NONE, BUS_I, BUS_TYPE, PD, QD] = idx_bus;
Vbase = mpc.bus(1, 10)' * 1e3;      % in Volts
mpc.bus(:, [PD, QD]) = mpc.bus(:, [PD, QD]) / 1e3;
mpc.branch(:, [3 4]) = ...
    mpc.branch(:, [3 4]) .* (Vbase^2 / 1e6);
return;
