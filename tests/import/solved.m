function mpc = solved
%SOLVED  Three buses as a solved optimal power flow writes them: 17, 25 and 21 columns, in scientific notation.
mpc.version = '2';
mpc.baseMVA = 100;
mpc.bus = [
	9.9e1	3	0	0	0	0	1	1.06	0	230	1	1.1	0.9	1.2e+01	-3.5E-14	0	0;
	10	1	0	0	0	0	1	1.0413	-2.11	230	1	1.1	0.9	1.25e+01	2.4e-15	0	0;
	5	1	1.8e2	1.4E+1	0	0	1	1.0201	-4.75	230	1	1.1	0.9	13	.1e-1	0	0;
];
mpc.gen = [
	99	1.804321e+02	-1.65e1	300	-300	1.06	100	1	250	0	0	0	0	0	0	0	0	0	0	0	0	0	0	0	0;
];
mpc.branch = [
	99	10	0.01	0.085	0.176	250	250	250	0	0	1	-360	360	180.4	-16.5	-179.1	8.3	0	0	0	0;
	10	5	0.01	0.085	0.176	250	250	250	0	0	1	-360	360	1.791e+02	-8.3	-1.8e2	-1.4e1	0	0	0	0;
];
